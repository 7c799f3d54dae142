//! Rings to measure with, on the bounds 0, 0, 10, 10.

use std::f64::consts::TAU;

use geo::Coord;

pub const BOUNDS: [f64; 4] = [0.0, 0.0, 10.0, 10.0];

/// A ring of so many vertices.
pub type Outline = fn(usize) -> Vec<Coord<f64>>;

/// Vertices around a centre, by the distance of each.
fn around(n: usize, centre: (f64, f64), distance: impl Fn(usize) -> f64) -> Vec<Coord<f64>> {
    let vertex = |k: usize| {
        let angle = TAU * k as f64 / n as f64;
        Coord { x: centre.0 + distance(k) * angle.cos(), y: centre.1 + distance(k) * angle.sin() }
    };
    (0..n).map(vertex).collect()
}

pub fn inside(n: usize) -> Vec<Coord<f64>> {
    around(n, (5.0, 5.0), |_| 4.0)
}

pub fn half_outside(n: usize) -> Vec<Coord<f64>> {
    around(n, (10.0, 5.0), |_| 4.0)
}

/// No vertex lies on a bound, where the cut would repeat it: half outside, and cut without an issue.
pub fn astride(n: usize) -> Vec<Coord<f64>> {
    around(n, (10.01, 5.0), |_| 4.0)
}

pub fn apart(n: usize) -> Vec<Coord<f64>> {
    around(n, (30.0, 5.0), |_| 4.0)
}

/// A radius that is up to 5 % longer or shorter, by a fixed rule that looks like chance.
pub fn rough(n: usize) -> Vec<Coord<f64>> {
    let wavering = |k: usize| (k as u64).wrapping_mul(0x9e37_79b9_7f4a_7c15) >> 11;
    around(n, (5.0, 5.0), |k| 4.0 * (0.95 + 0.1 * wavering(k) as f64 / (1u64 << 53) as f64))
}

/// In and out at every vertex, over all four lines.
pub fn zigzag(n: usize) -> Vec<Coord<f64>> {
    around(n, (5.0, 5.0), |k| if k % 2 == 0 { 3.0 } else { 9.0 })
}
