//! Rings drawn with a purpose, not closed.

use std::f64::consts::TAU;

use formats::{Coord, Ring};

use crate::rng::Rng;

/// Outlines on a small whole grid: shapes that a tile edge splits, touches or bridges.
const OUTLINES: [&[(i8, i8)]; 10] = [
    // Rectangle.
    &[(0, 0), (4, 0), (4, 3), (0, 3)],
    // Triangle.
    &[(0, 0), (5, 0), (2, 4)],
    // U.
    &[(0, 0), (6, 0), (6, 5), (4, 5), (4, 2), (2, 2), (2, 5), (0, 5)],
    // Comb.
    &[(0, 0), (8, 0), (8, 4), (7, 4), (7, 1), (5, 1), (5, 4), (4, 4), (4, 1), (2, 1), (2, 4), (0, 4)],
    // Bow tie.
    &[(0, 0), (6, 6), (6, 0), (0, 6)],
    // Diamond.
    &[(3, 0), (6, 3), (3, 6), (0, 3)],
    // L.
    &[(0, 0), (5, 0), (5, 2), (2, 2), (2, 5), (0, 5)],
    // Ring that touches itself in a vertex.
    &[(0, 0), (3, 3), (6, 0), (6, 6), (3, 3), (0, 6)],
    // Spike there and back.
    &[(0, 0), (4, 0), (4, 3), (9, 3), (4, 3), (0, 3)],
    // Flat: there and back along one line.
    &[(0, 0), (5, 5), (9, 9)],
];

/// An outline, turned, mirrored, moved and stretched over the bounds 0, 0, 10, 10.
pub fn outline(rng: &mut Rng) -> Ring {
    let points = rng.pick(&OUTLINES);
    let (turned, mirrored_x, mirrored_y) = (rng.once_in(2), rng.once_in(2), rng.once_in(2));
    let stretch = rng.pick(&[0.5, 1.0, 1.0, 1.0, 2.0, 3.0]);
    let (dx, dy) = (rng.between(-6, 10) as f64, rng.between(-6, 10) as f64);
    let mut ring: Ring = points
        .iter()
        .map(|&(x, y)| {
            let (x, y) = if turned { (y, x) } else { (x, y) };
            let flipped = |value: i8, mirrored: bool| stretch * f64::from(if mirrored { 6 - value } else { value });
            (flipped(x, mirrored_x) + dx, flipped(y, mirrored_y) + dy)
        })
        .collect();
    let start = rng.below(ring.len());
    ring.rotate_left(start);
    ring
}

/// A ring around a centre whose radius wavers: simple, unless `knots` neighbours are swapped.
pub fn star(rng: &mut Rng, centre: Coord, radius: f64, vertices: usize, knots: usize) -> Ring {
    let waver = rng.pick(&[0.0, 0.1, 0.5, 0.9]);
    let mut ring: Ring = (0..vertices)
        .map(|k| {
            let angle = TAU * k as f64 / vertices as f64;
            let reach = radius * (1.0 - waver * rng.fraction());
            (centre.0 + reach * angle.cos(), centre.1 + reach * angle.sin())
        })
        .collect();
    for _ in 0..knots {
        let k = rng.below(vertices);
        ring.swap(k, (k + 1) % vertices);
    }
    ring
}

/// Teeth along the x axis: many edges on two lines, which a bound may cut or touch.
pub fn teeth(rng: &mut Rng, vertices: usize) -> Ring {
    let (low, high) = (rng.between(-3, 5) as f64, rng.between(5, 13) as f64);
    let step = rng.pick(&[0.05, 0.125, 0.5, 1.0]);
    let start = rng.between(-5, 5) as f64;
    let mut ring: Ring = (0..vertices.saturating_sub(2))
        .map(|k| (start + step * (k / 2) as f64, if k.div_ceil(2) % 2 == 0 { low } else { high }))
        .collect();
    let end = start + step * vertices as f64;
    ring.push((end, low - 1.0));
    ring.push((start, low - 1.0));
    ring
}

/// A ring whose last segment is shorter than 1e-10, with an edge that passes through it and crosses nothing else.
pub fn crossed_last_segment(rng: &mut Rng) -> Ring {
    let tip = rng.pick(&[5e-11, 2e-11, 1e-10_f64.next_down(), 1e-10]);
    let middle = tip / 2.0;
    let reach = rng.pick(&[1.0, 2.0, 6.0]);
    vec![(0.0, 0.0), (middle - reach, middle + reach), (middle + reach, middle - reach), (tip, tip)]
}
