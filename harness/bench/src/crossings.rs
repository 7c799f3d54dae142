//! The port's issue check on rings that cross themselves, beside the same ring without a crossing: where two edges cross, the pair
//! with the lowest numbers is looked for by one walk more. In a table of its own, as what is measured beside is not the Rust.

use std::ops::Range;

use geo::Coord;
use tylertoo::clip::opened::{any_edge_pair, has_self_intersecting_edges};

use crate::issues::{self, Sides};
use crate::outlines::{zigzag, Outline};
use crate::table::whole;
use crate::timing::medians;

/// Of longer rings most edges of a zigzag share their x with most others, and a check takes seconds.
const LONGEST_ZIGZAG: usize = 4_096;

pub fn measure() {
    println!("| size | ring | crossings | sound | crossing | ratio |\n|---|---|---|---|---|---|");
    for edges in [64, 317, 1_024, 4_096, 65_536] {
        for (name, outline) in issues::OUTLINES {
            print_rows(edges, name, outline);
        }
        if edges <= LONGEST_ZIGZAG {
            print_rows(edges, "zigzag", zigzag);
        }
    }
}

fn print_rows(edges: usize, name: &str, outline: Outline) {
    let sound = outline(edges);
    let crossing = crossing(&sound);
    let rings = [&sound].into_iter().chain(crossing.iter().map(|crossing| &crossing.ring));
    let mut sides: Vec<Sides> = rings.map(|ring| Sides::new(ring)).collect();
    assert_eq!(sides[0].found(), 0, "a ring of {edges} edges, {name}, has an issue");
    for (Crossing { crossings, lower, .. }, sides) in crossing.iter().zip(&mut sides[1..]) {
        let found = sides.found();
        let (issue, first) = (found & 0xff, (found >> 8 & 0xff_ffff) as usize);
        assert!(issue == 3 && lower.contains(&first), "{found:#x} of {edges} edges, {name}, {crossings}");
    }
    let mut checks: Vec<_> = sides.iter_mut().map(|sides| || sides.port()).collect();
    let mut tasks: Vec<&mut dyn FnMut()> = checks.iter_mut().map(|check| check as &mut dyn FnMut()).collect();
    let times = medians(&mut tasks);
    for (Crossing { crossings, .. }, time) in crossing.iter().zip(&times[1..]) {
        let [size, sound, crossing] = [edges as f64, times[0], *time].map(whole);
        println!("| {size} edges | {name} | {crossings} | {sound} | {crossing} | {:.2} |", time / times[0]);
    }
}

/// A ring that crosses itself, and where the lower edge of its first pair has to be: under 4 the port takes a shortcut.
struct Crossing {
    crossings: &'static str,
    lower: Range<usize>,
    ring: Vec<Coord<f64>>,
}

/// The ring with one crossing where a sweep from the west begins, in its middle and where it ends, the edges' numbers as high as
/// they get; the first of these with low numbers; and with many, from the first edges on and in the second half alone.
fn crossing(sound: &[Coord<f64>]) -> [Crossing; 6] {
    let n = sound.len();
    let west = with_one(sound, n / 2);
    let mut low = west.clone();
    low.rotate_left(n - 7);
    [
        ("one in the west", n - 5..n - 4, west),
        ("one in the middle", n - 5..n - 4, with_one(sound, 3 * n / 4)),
        ("one in the east", n - 5..n - 4, with_one(sound, 0)),
        ("one, numbered low", 2..3, low),
        ("many", 0..4, with_many(sound, 1)),
        ("many, none at the first edges", n / 2 - 8..n, with_many(sound, n / 2)),
    ]
    .map(|(crossings, lower, ring)| Crossing { crossings, lower, ring })
}

/// One pair of edges crosses, about the vertex that stood at this place; it is then among the last.
fn with_one(sound: &[Coord<f64>], place: usize) -> Vec<Coord<f64>> {
    let n = sound.len();
    let from_place = |further: usize| {
        let mut ring = sound.to_vec();
        ring.rotate_left((place + further + 4) % n);
        cross_next(&mut ring, n - 4);
        ring
    };
    (0..n).map(from_place).find(|ring| crossings(ring) == 1).expect("somewhere one pair alone crosses")
}

/// From this vertex on every eighth edge crosses another.
fn with_many(sound: &[Coord<f64>], first: usize) -> Vec<Coord<f64>> {
    let mut ring = sound.to_vec();
    (first..ring.len() - 3).step_by(8).for_each(|k| cross_next(&mut ring, k));
    let (crossings, edges) = (crossings(&ring), ring.len() - first);
    assert!(crossings >= edges / 10, "{crossings} of {edges} edges cross");
    ring
}

/// Moves a vertex over the middle of the edge that follows the next, so that the edge before it crosses that one.
fn cross_next(ring: &mut [Coord<f64>], k: usize) {
    let (vertex, start, end) = (ring[k], ring[k + 1], ring[k + 2]);
    let over = |from: f64, start: f64, end: f64| from + 1.1 * ((start + end) / 2.0 - from);
    ring[k] = Coord { x: over(vertex.x, start.x, end.x), y: over(vertex.y, start.y, end.y) };
}

/// How many pairs of edges cross, each asked of the Rust as a ring of the two and the way between them.
pub fn crossings(ring: &[Coord<f64>]) -> usize {
    let closed = [ring, &ring[..1]].concat();
    let mut crossings = 0;
    any_edge_pair(&closed, |a, b| {
        crossings += usize::from(has_self_intersecting_edges(&[a.start, a.end, b.start, b.end]));
        false
    });
    crossings
}
