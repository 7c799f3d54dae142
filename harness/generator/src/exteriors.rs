//! Rings for the issue check, closed or not: half of them of more than 32 edges, a quarter with a NaN or an infinity.

use formats::{Coord, Ring};

use crate::outlines::star;
use crate::rng::Rng;
use crate::scene::{Scene, Style};

/// Keeps the rings of a seed apart from its frames and calls; each style has its own stream.
const STREAM: u64 = 500;

/// The fewest coordinates of a ring that is swept.
const SWEPT: usize = 34;

pub fn exterior(style: Style, seed: u64, index: u64) -> Ring {
    let rng = &mut Rng::new(seed, STREAM + style as u64, index);
    let scene = Scene::new(style, rng);
    let mut ring = scene.ring(rng);
    if index.is_multiple_of(2) {
        lengthen(&mut ring, &scene, rng);
    }
    if index % 4 < 2 && rng.once_in(2) && !ring.is_empty() {
        let place = rng.below(ring.len());
        replace_one_number(&mut ring[place], rng);
    }
    ring
}

/// More of the same kind behind it, or a ring around a centre, which is simple unless neighbours are swapped.
fn lengthen(ring: &mut Ring, scene: &Scene, rng: &mut Rng) {
    if rng.once_in(2) {
        let vertices = SWEPT + rng.below(60);
        let knots = rng.pick(&[0, 0, 1]);
        *ring = star(rng, (5.0, 5.0), 4.0, vertices, knots);
    }
    while ring.len() < SWEPT {
        ring.extend(scene.ring(rng));
        ring.push((rng.fraction(), rng.fraction()));
    }
}

fn replace_one_number(coord: &mut Coord, rng: &mut Rng) {
    let number = rng.pick(&[f64::NAN, -f64::NAN, f64::INFINITY, f64::NEG_INFINITY]);
    if rng.once_in(2) {
        coord.0 = number;
    } else {
        coord.1 = number;
    }
}
