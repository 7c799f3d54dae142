//! Single passes, with the output lent to them filled with any bits but those of a zero: rings of a scene, and rings whose
//! verdicts are easily miscounted. The origins that they begin with are any: positions and lines in any order.

use formats::origins::line_origin;
use formats::passes::{Edge, PassCall};
use formats::room::most_passed;
use formats::{flat, Coord, Ring};

use crate::calls::{around_the_limit, is_long, lent_numbers, lent_origins, zigzag};
use crate::numbers::{any_bits, grid};
use crate::rng::Rng;
use crate::scene::{lone_coordinate, Scene, Style};

/// Keeps the passes of a seed apart from its frames and calls; each style has its own stream.
const STREAM: u64 = 600;

/// The edges take turns.
pub fn pass(style: Style, seed: u64, index: u64) -> PassCall {
    let rng = &mut Rng::new(seed, STREAM + style as u64, index);
    let scene = Scene::new(style, rng);
    let edge = Edge::ALL[index as usize % Edge::ALL.len()];
    let mut ring = flat(&ring(&scene, edge, rng));
    if rng.once_in(30) {
        ring.push(any_bits(rng));
    }
    let (vertices, most) = (ring.len() / 2, most_passed(ring.len() / 2));
    PassCall {
        ring,
        origins: origins(vertices, rng),
        edge,
        bounds: scene.bounds,
        out: lent_numbers(2 * most, rng),
        out_origins: lent_origins(most, rng),
    }
}

/// An origin for each vertex, and seldom one fewer or some more: any of them, lines more often than they would come by chance.
fn origins(vertices: usize, rng: &mut Rng) -> Vec<u16> {
    let length = match rng.below(60) {
        0 => vertices.saturating_sub(1),
        1 | 2 => vertices + 1 + rng.below(5),
        _ => vertices,
    };
    let lines = Edge::ALL.map(line_origin);
    (0..length).map(|_| if rng.once_in(3) { rng.pick(&lines) } else { rng.bits() as u16 }).collect()
}

fn ring(scene: &Scene, edge: Edge, rng: &mut Rng) -> Ring {
    if is_long(rng) {
        return zigzag(around_the_limit(rng), rng);
    }
    match rng.below(24) {
        0 => Vec::new(),
        1 => vec![vertex(scene, rng)],
        2 | 3 => twice_the_same(scene, rng),
        4 => of_nans(rng),
        5..=8 => touching(scene, edge, rng),
        _ => scene.ring(rng),
    }
}

/// The first vertex of a ring of the scene, or one of any bits.
fn vertex(scene: &Scene, rng: &mut Rng) -> Coord {
    scene.ring(rng).first().copied().unwrap_or_else(|| lone_coordinate(rng))
}

/// One vertex and itself again: equal, with zeros of either sign too, unless it has a NaN, which equals nothing.
fn twice_the_same(scene: &Scene, rng: &mut Rng) -> Ring {
    let (x, y) = vertex(scene, rng);
    match rng.below(8) {
        0 => vec![(0.0, y), (-0.0, y)],
        1 => vec![(x, -0.0), (x, 0.0)],
        2 => vec![(f64::NAN, y); 2],
        3 => vec![(x, f64::NAN); 2],
        _ => vec![(x, y); 2],
    }
}

/// Vertices that are hardly ever numbers.
fn of_nans(rng: &mut Rng) -> Ring {
    let number = |rng: &mut Rng| if rng.once_in(4) { grid(rng) } else { rng.pick(&[f64::NAN, -f64::NAN]) };
    (0..1 + rng.below(6)).map(|_| (number(rng), number(rng))).collect()
}

/// A ring of the scene with some vertices moved onto the edge's line: it touches the line there, or goes through it.
fn touching(scene: &Scene, edge: Edge, rng: &mut Rng) -> Ring {
    let [west, south, east, north] = scene.bounds;
    let mut ring = scene.ring(rng);
    for vertex in ring.iter_mut().filter(|_| rng.once_in(3)) {
        match edge {
            Edge::Left => vertex.0 = west,
            Edge::Right => vertex.0 = east,
            Edge::Bottom => vertex.1 = south,
            Edge::Top => vertex.1 = north,
        }
    }
    ring
}
