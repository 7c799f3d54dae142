//! Whether two closed segments share a point, exactly: the doubles are scaled to whole numbers, and the place of the shared point on
//! either segment is a fraction of these. No test by sides, as the port and `line_intersection` have it.

use std::cmp::{max, min};

use crate::pair::{Pair, STEPS};
use crate::whole::{Number, Whole};

/// Where two closed segments meet.
#[derive(Clone, Copy, Debug, PartialEq)]
pub enum Meeting {
    Nowhere,
    /// In one point that is an end of one of them at least.
    AtEnd,
    /// In one point that is no end.
    Within,
    /// On one line.
    InLine,
}

/// Of numbers that are finite.
pub fn share_point(pair: &Pair) -> bool {
    meeting(pair) != Meeting::Nowhere
}

/// Of numbers that are finite.
pub fn meeting(pair: &Pair) -> Meeting {
    if pair.is_on_grid() {
        // At most 2^56 steps; a difference of products has at most 117 binary digits.
        return reckoned(&pair.0.map(|number| (number * STEPS) as i128));
    }
    reckoned(&pair.0.map(whole))
}

/// The number times 2^1074, which is whole of every finite double.
fn whole(number: f64) -> Whole {
    let bits = number.to_bits();
    let (exponent, fraction) = (bits >> 52 & 0x7ff, (bits & ((1 << 52) - 1)) as i64);
    // A subnormal number has no hidden digit, and the exponent of the least normal one.
    let digits = if exponent == 0 { fraction } else { fraction | 1 << 52 };
    let signed = if number < 0.0 { -digits } else { digits };
    Whole::shifted(signed, exponent.saturating_sub(1) as u32)
}

/// Of the coordinates' numbers in the pair's order.
fn reckoned<N: Number>([a1x, a1y, a2x, a2y, b1x, b1y, b2x, b2y]: &[N; 8]) -> Meeting {
    let a = (a2x.minus(a1x), a2y.minus(a1y));
    let b = (b2x.minus(b1x), b2y.minus(b1y));
    let way = (b1x.minus(a1x), b1y.minus(a1y));
    let cross = |(x, y): &(N, N), (u, v): &(N, N)| x.times(v).minus(&y.times(u));
    // Lines that are not parallel meet `on_a / whole` of the way along a and `on_b / whole` along b.
    let (whole, on_a, on_b) = (cross(&a, &b), cross(&way, &b), cross(&way, &a));
    let zero = N::zero();
    if whole == zero {
        let meet = |a1, a2, b1, b2| max(a1, a2) >= min(b1, b2) && max(b1, b2) >= min(a1, a2);
        let is_shared = on_a == zero && on_b == zero && meet(a1x, a2x, b1x, b2x) && meet(a1y, a2y, b1y, b2y);
        return if is_shared { Meeting::InLine } else { Meeting::Nowhere };
    }
    let (low, high) = (min(&zero, &whole), max(&zero, &whole));
    if [&on_a, &on_b].iter().any(|part| *part < low || *part > high) {
        Meeting::Nowhere
    } else if [&on_a, &on_b].iter().any(|part| *part == low || *part == high) {
        Meeting::AtEnd
    } else {
        Meeting::Within
    }
}

#[cfg(test)]
mod tests {
    use super::*;
    use crate::generator;
    use crate::rng::Rng;

    #[test]
    fn doubles_are_scaled_to_whole_numbers() {
        let least = 5e-324;
        assert_eq!(whole(0.0), Whole::shifted(0, 0));
        assert_eq!(whole(-3.0 * least), Whole::shifted(-3, 0));
        assert_eq!(whole(f64::MIN_POSITIVE), Whole::shifted(1, 52));
        assert_eq!(whole(-2.5), Whole::shifted(-5, 1_073));
    }

    /// Pairs on the grid in steps of it and in steps of the least double.
    #[test]
    fn long_numbers_say_what_short_ones_do() {
        let mut rng = Rng::new(5);
        let mut met = [0; 4];
        for pair in (0..20_000).map(|_| generator::on_grid(&mut rng)) {
            let meeting = meeting(&pair);
            assert_eq!(reckoned(&pair.0.map(whole)), meeting, "{:?}", pair.0);
            met[meeting as usize] += 1;
        }
        assert!(met.iter().all(|&met| met > 500), "{met:?}");
    }

    #[test]
    fn segments_meet_where_they_are_seen_to() {
        for (numbers, expected) in [
            ([0.0, 0.0, 2.0, 2.0, 0.0, 1.0, 2.0, 0.0], Meeting::Within),
            ([0.0, 0.0, 2.0, 2.0, 1.0, 1.0, 5.0, 0.0], Meeting::AtEnd),
            ([0.0, 0.0, 2.0, 2.0, 3.0, 3.0, 5.0, 0.0], Meeting::Nowhere),
            ([0.0, 0.0, 2.0, 2.0, 0.0, 1.0, 2.0, 3.0], Meeting::Nowhere),
            ([0.0, 0.0, 2.0, 2.0, 1.0, 1.0, 3.0, 3.0], Meeting::InLine),
            ([0.0, 0.0, 2.0, 2.0, 2.0, 2.0, 3.0, 3.0], Meeting::InLine),
            ([0.0, 0.0, 2.0, 2.0, 2.5, 2.5, 3.0, 3.0], Meeting::Nowhere),
            ([1.0, 1.0, 1.0, 1.0, 0.0, 0.0, 2.0, 2.0], Meeting::InLine),
            ([1.0, 1.0, 1.0, 1.0, 0.0, 0.0, 2.0, 3.0], Meeting::Nowhere),
            ([1.0, 1.0, 1.0, 1.0, 1.0, 1.0, 1.0, 1.0], Meeting::InLine),
        ] {
            assert_eq!(meeting(&Pair(numbers)), expected, "{numbers:?}");
            let off_grid = numbers.map(|number| number / (1u64 << 60) as f64);
            assert_eq!(meeting(&Pair(off_grid)), expected, "{off_grid:?}");
        }
    }
}
