//! Demand 3, tested on an answered ring: latitudes, counts and the longitudes' overrun, exactly.

use formats::Bounds;

/// 1/2^42, the longest overrun of a longitude.
const OVERRUN: f64 = 1.0 / (1u64 << 42) as f64;

/// Numbers of which the overrun is promised.
const MODEST: f64 = 256.0;

/// What of the promise is broken by `answer`, x and y numbers cut from `ring`.
pub fn broken(bounds: &Bounds, ring: &[f64], answer: &[f64]) -> Option<&'static str> {
    let &[west, south, east, north] = bounds;
    let count = answer.len() / 2;
    let most = (0..4).fold(ring.len() / 2, |n, _| n + n / 2) + 1;
    let modest = |number: &f64| number.abs() <= MODEST;
    let all_modest = bounds.iter().all(modest) && ring.iter().all(modest);
    let longitudes_hold = |x: f64| x.is_finite() && exceeds_at_most(west, x) && exceeds_at_most(x, east);
    if count == 1 || count == 2 {
        Some("one or two vertices")
    } else if count > most {
        Some("too many vertices")
    } else if south <= north && !answer.chunks(2).all(|vertex| south <= vertex[1] && vertex[1] <= north) {
        Some("a latitude not from south to north")
    } else if south <= north && west <= east && all_modest && !answer.chunks(2).all(|vertex| longitudes_hold(vertex[0]))
    {
        Some("a longitude too far out")
    } else {
        None
    }
}

/// Whether `a - b` is at most the overrun, exactly: the rounded difference and its error.
fn exceeds_at_most(a: f64, b: f64) -> bool {
    let difference = a - b;
    let b_again = a - difference;
    let a_again = difference + b_again;
    let error = (a - a_again) + (b_again - b);
    difference < OVERRUN || (difference == OVERRUN && error <= 0.0)
}
