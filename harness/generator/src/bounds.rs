//! Pairs of bounds for the methods of `TileBounds`, with a buffer.

use formats::Bounds;

use crate::numbers::{any_bits, any_bounds};
use crate::rng::Rng;

/// Keeps the bounds of a seed apart from its frames.
const STREAM: u64 = 400;

/// Any bit patterns; now and then the second bounds repeat a number of the first, or its negative.
pub fn bounds(seed: u64, index: u64) -> (Bounds, Bounds, f64) {
    let rng = &mut Rng::new(seed, STREAM, index);
    let (a, mut b) = (any_bounds(rng), any_bounds(rng));
    for k in 0..4 {
        match rng.below(8) {
            0 => b[k] = a[k],
            1 => b[k] = -a[k],
            _ => {}
        }
    }
    (a, b, any_bits(rng))
}
