//! Rings with issues at any place, not closed: crossings and repeated corners, many of them or one, of the ring itself or only of
//! what a cut at the bounds 0, 0, 10, 10 leaves of it.

use std::f64::consts::TAU;

use formats::{Coord, Ring};

use crate::numbers::near_offset;
use crate::outlines::star;
use crate::rng::Rng;

const MIDDLE: Coord = (5.0, 5.0);

/// A ring of at most so many vertices, which are over 120; half of them have more than 32 edges.
pub fn tangle(most: usize, rng: &mut Rng) -> Ring {
    let repeats = rng.pick(&[0, 0, 0, 1, 2, 5]);
    let vertices = match rng.below(8) {
        0..=3 => rng.between(4, 32),
        4 | 5 => rng.between(28, 60),
        6 => rng.between(33, 120),
        _ => rng.between(121, (most - repeats) as i64),
    } as usize;
    let mut ring = match rng.below(8) {
        0 => scribble(vertices, rng),
        1 => star_polygon(vertices, rng),
        2 => knotted(vertices, rng),
        3 => tangled_stretch(vertices, rng),
        4 => spiked(vertices, rng),
        _ => touched_lines(vertices, rng),
    };
    let start = rng.below(ring.len());
    ring.rotate_left(start);
    (0..repeats).for_each(|_| repeat_nearly(&mut ring, rng));
    ring
}

/// Tenths anywhere in and about the bounds.
fn scribble(vertices: usize, rng: &mut Rng) -> Ring {
    let mut tenths = || rng.between(-20, 120) as f64 / 10.0;
    (0..vertices).map(|_| (tenths(), tenths())).collect()
}

/// Every edge reaches over as many vertices of a circle.
fn star_polygon(vertices: usize, rng: &mut Rng) -> Ring {
    let step = rng.between(2, vertices as i64 / 2) as usize;
    let radius = rng.pick(&[3.0, 4.5, 6.0]);
    let vertex = |k: usize| {
        let angle = TAU * (k * step % vertices) as f64 / vertices as f64;
        (MIDDLE.0 + radius * angle.cos(), MIDDLE.1 + radius * angle.sin())
    };
    (0..vertices).map(vertex).collect()
}

/// Sound but for some neighbours that are swapped, at any place from west to east.
fn knotted(vertices: usize, rng: &mut Rng) -> Ring {
    let knots = rng.pick(&[1, 1, 2, 3, 8]);
    let radius = rng.pick(&[3.0, 4.5, 6.0]);
    star(rng, MIDDLE, radius, vertices, knots)
}

/// Sound but for some vertices in a row, which are scattered about one of them.
fn tangled_stretch(vertices: usize, rng: &mut Rng) -> Ring {
    let mut ring = star(rng, MIDDLE, 4.5, vertices, 0);
    let length = rng.between(3, 10) as usize;
    let start = rng.below(vertices.saturating_sub(length) + 1);
    let (x, y) = ring[start];
    for vertex in ring.iter_mut().skip(start).take(length) {
        *vertex = (x + rng.fraction() - 0.5, y + rng.fraction() - 0.5);
    }
    ring
}

/// Spikes there and back, far over the bounds: a cut leaves two corners in one place.
fn spiked(vertices: usize, rng: &mut Rng) -> Ring {
    let often = rng.pick(&[2, 5, 20]);
    let mut ring = Ring::new();
    for vertex in star(rng, MIDDLE, 4.0, (vertices / 3).max(3), 0) {
        ring.push(vertex);
        if rng.once_in(often) {
            let out = (MIDDLE.0 + 4.0 * (vertex.0 - MIDDLE.0), MIDDLE.1 + 4.0 * (vertex.1 - MIDDLE.1));
            ring.extend([out, vertex]);
        }
    }
    ring
}

/// One edge straight through the bounds, and a way back on one side of it with corners that lie on it exactly, since all are
/// whole multiples of a power of two. Where the edge is cut it is moved by a rounding, so that it may cross the edges at such a
/// corner, which it only touched. A second such edge may touch the corners on the other side of the way back.
fn touched_lines(vertices: usize, rng: &mut Rng) -> Ring {
    let has_second = vertices > 8 && rng.once_in(2);
    let touches = if has_second { (vertices - 7) / 2 } else { (vertices - 2) / 2 };
    let end = (touches + 1) as f64;
    let (dx, dy) = (rng.pick(&[3.0, 5.0, 7.0, 11.0, 13.0]), rng.pick(&[1.0, 2.0, -1.0, -2.0]));
    // The line is some 9 to 18 long and begins and ends beyond a bound, or inside it.
    let scale = (18.0 / (dx * end)).log2().floor().exp2();
    let (x, y) = (rng.between(-6, 2) as f64, rng.between(2, 8) as f64);
    let height = rng.pick(&[0.25, 0.5, 1.0, 4.0]);
    let at = |place: f64, above: f64| (x + place * scale * dx, y + place * scale * dy + above * height);
    let mut ring = vec![at(0.0, 0.0), at(end, 0.0)];
    for touch in (1..=touches).rev() {
        ring.extend([at(touch as f64 + 0.5, 1.0), at(touch as f64, 0.0)]);
    }
    if has_second {
        // Behind it a way around both lines to where the first begins.
        ring.extend([at(0.0, 1.0), at(end, 1.0), at(end, 2.0), at(0.0, 2.0), (x - 1.0, y)]);
    }
    turned(ring, rng)
}

/// Mirrored and turned in the bounds.
fn turned(ring: Ring, rng: &mut Rng) -> Ring {
    let (swapped, mirrored_x, mirrored_y) = (rng.once_in(2), rng.once_in(2), rng.once_in(2));
    let flipped = |value: f64, mirrored: bool| if mirrored { 10.0 - value } else { value };
    ring.into_iter()
        .map(|(x, y)| if swapped { (y, x) } else { (x, y) })
        .map(|(x, y)| (flipped(x, mirrored_x), flipped(y, mirrored_y)))
        .collect()
}

/// A vertex once more behind itself, the same or on either side of near.
fn repeat_nearly(ring: &mut Ring, rng: &mut Rng) {
    let k = rng.below(ring.len());
    let (x, y) = ring[k];
    ring.insert(k + 1, (x + near_offset(rng), y + near_offset(rng)));
}
