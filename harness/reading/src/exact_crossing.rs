//! Document 02, point 8: how far a cut is from the exact crossing. Every double is a whole number of units of 1/2^1074, and the crossing
//! is reckoned in these: its free coordinate is that of the two ends, each weighted by how far the other end is from the line, over the
//! sum of the weights.

use crate::cut::Cut;
use crate::whole::Whole;
use crate::{Mistake, Reading, Vertex};

/// Point 8 speaks of numbers of at most this magnitude.
const LARGEST: f64 = 256.0;

/// The free coordinate is promised to be within 1/2^40 of the exact one.
pub const PROMISED: u32 = 40;

/// One has 2^1074 units.
const UNITS: u32 = 1_074;

impl Cut {
    /// Whether point 8 speaks of it: one end is in and the other out, and the bound and the ends are of numbers up to 256.
    pub fn is_covered(&self) -> bool {
        let Cut { bound, start, end, .. } = *self;
        let are_modest = [bound, start.x, start.y, end.x, end.y].iter().all(|number| number.abs() <= LARGEST);
        are_modest && self.is_in(start) != self.is_in(end)
    }

    /// On the line is in.
    fn is_in(&self, v: Vertex) -> bool {
        self.side.holds(self.side.across_and_along(v).0, self.bound)
    }
}

/// How far a computed free coordinate is from the exact one, in units: a fraction of whole numbers, the lower one not 0.
#[derive(Clone, Debug)]
pub struct Distance {
    apart: Whole,
    weights: Whole,
}

impl Distance {
    /// Whether it is at most 1/2^k.
    pub fn is_at_most(&self, k: u32) -> bool {
        self.apart <= self.weights.shifted(units_of(k))
    }

    pub fn is_zero(&self) -> bool {
        self.apart == Whole::ZERO
    }

    /// How many times 1/2^k it is, rounded up: no less than it is, and more by some last digits at most.
    pub fn times(&self, k: u32) -> f64 {
        let (apart, apart_behind) = self.apart.rounded(true);
        let (weights, weights_behind) = self.weights.rounded(false);
        let quotient = apart / weights;
        let is_less = quotient.mul_add(weights, -apart) < 0.0;
        let power = apart_behind as i32 - weights_behind as i32 - units_of(k) as i32;
        (if is_less { quotient.next_up() } else { quotient }) * 2f64.powi(power.max(LEAST_POWER))
    }
}

/// A power of two whose products with quotients are not rounded: a distance that is less is told as more than it is.
const LEAST_POWER: i32 = -900;

/// The binary digits of the units in 1/2^k.
fn units_of(k: u32) -> usize {
    (UNITS - k) as usize
}

/// A number with a sign, in units: the difference of two without.
struct Signed {
    plus: Whole,
    minus: Whole,
}

impl Signed {
    fn units(number: f64) -> Signed {
        let magnitude = Whole::units(number);
        if number < 0.0 {
            Signed { plus: Whole::ZERO, minus: magnitude }
        } else {
            Signed { plus: magnitude, minus: Whole::ZERO }
        }
    }

    fn plus(&self, other: &Signed) -> Signed {
        Signed { plus: self.plus.plus(&other.plus), minus: self.minus.plus(&other.minus) }
    }

    fn times(&self, weight: &Whole) -> Signed {
        Signed { plus: self.plus.times(weight), minus: self.minus.times(weight) }
    }

    fn apart(&self, other: &Signed) -> Whole {
        self.plus.plus(&other.minus).apart(&other.plus.plus(&self.minus))
    }
}

impl Reading {
    /// How far the free coordinate of a crossing is from the exact one; none where it is a NaN or infinite. Asked only of a cut that
    /// point 8 speaks of (`is_covered`): its numbers are finite, and the line lies between its ends.
    pub fn distance(&self, cut: &Cut, crossing: Vertex) -> Option<Distance> {
        let (_, along) = cut.side.across_and_along(crossing);
        if !along.is_finite() {
            return None;
        }
        let [start, end] = [cut.start, cut.end].map(|end| cut.side.across_and_along(end));
        let [bound, from, to] = [cut.bound, start.0, end.0].map(Signed::units);
        let [of_start, of_end] = self.weights(to.apart(&bound), from.apart(&bound));
        let weights = of_start.plus(&of_end);
        let exact = Signed::units(start.1).times(&of_start).plus(&Signed::units(end.1).times(&of_end));
        Some(Distance { apart: Signed::units(along).times(&weights).apart(&exact), weights })
    }

    /// Of the start and of the end, by how far the line is from the other one.
    fn weights(&self, from_end: Whole, from_start: Whole) -> [Whole; 2] {
        if self.makes(Mistake::WeightsExchanged) {
            return [from_start, from_end];
        }
        [from_end, from_start]
    }
}

#[cfg(test)]
mod tests {
    use super::*;
    use crate::Side;

    /// A cut at Left, where x is across: the ends as (x, y).
    fn at_left(bound: f64, [ax, ay, bx, by]: [f64; 4]) -> Cut {
        Cut { side: Side::Left, bound, start: Vertex { x: ax, y: ay }, end: Vertex { x: bx, y: by } }
    }

    /// The same cut at another side: mirrored, so that the same end is in, or with x and y exchanged.
    fn at(side: Side, cut: &Cut) -> Cut {
        let turned = |v: Vertex| match side {
            Side::Left => v,
            Side::Right => Vertex { x: -v.x, y: v.y },
            Side::Bottom => Vertex { x: v.y, y: v.x },
            Side::Top => Vertex { x: v.y, y: -v.x },
        };
        let bound = if matches!(side, Side::Left | Side::Bottom) { cut.bound } else { -cut.bound };
        Cut { side, bound, start: turned(cut.start), end: turned(cut.end) }
    }

    /// How far a free coordinate is from the exact crossing, at each side and in either direction.
    fn distance(reading: &Reading, cut: &Cut, along: f64) -> Option<Distance> {
        let of = |cut: &Cut| {
            let across_is_x = matches!(cut.side, Side::Left | Side::Right);
            let crossing =
                if across_is_x { Vertex { x: cut.bound, y: along } } else { Vertex { x: along, y: cut.bound } };
            reading.distance(cut, crossing)
        };
        let fraction =
            |distance: &Option<Distance>| distance.clone().map(|Distance { apart, weights }| (apart, weights));
        let first = of(cut);
        for side in Side::ORDER {
            let cut = at(side, cut);
            assert!(cut.is_covered(), "{cut:?}");
            let turned = Cut { start: cut.end, end: cut.start, ..cut };
            assert_eq!(fraction(&of(&cut)), fraction(&first), "{cut:?}");
            assert_eq!(fraction(&of(&turned)), fraction(&first), "{turned:?}");
        }
        first
    }

    fn right(cut: &Cut, along: f64) -> Distance {
        distance(&Reading::RIGHT, cut, along).expect("it is finite")
    }

    const LEAST: f64 = 5e-324;

    #[test]
    fn crossings_worked_by_hand_are_exact() {
        for (bound, ends, exact) in [
            (10.0, [5.0, 5.0, 15.0, 8.0], 6.5),
            (10.0, [10.0, 7.0, 5.0, 9.0], 7.0),
            (-3.0, [-4.0, -8.0, 0.0, 8.0], -4.0),
            (0.5, [-256.0, 0.75, 256.0, 0.75], 0.75),
            (0.0, [-1.0, -2.0, 1.0, 2.0], 0.0),
            (0.0, [-0.0, 1.5, -1.0, 2.0], 1.5),
            (256.0, [256.0, 256.0, -256.0, -256.0], 256.0),
            (-255.0, [-256.0, 256.0, 256.0, -256.0], 255.0),
            (2.0 * LEAST, [0.0, 0.0, 3.0 * LEAST, 192.0], 128.0),
            (0.0, [-LEAST, 4.0 * LEAST, 3.0 * LEAST, 0.0], 3.0 * LEAST),
            (1.0, [1.0_f64.next_down(), -3.0, 1.0_f64.next_up(), 6.0], 0.0),
        ] {
            let cut = at_left(bound, ends);
            assert!(right(&cut, exact).is_zero(), "{cut:?}");
            assert_eq!(right(&cut, exact).times(PROMISED), 0.0);
            assert!(!right(&cut, exact + 0.25).is_zero(), "{cut:?}");
        }
    }

    /// 1/3 is 1/(3 x 2^54) more than the double next to it.
    #[test]
    fn a_crossing_at_a_third_is_no_double() {
        let cut = at_left(1.0, [0.0, 0.0, 3.0, 1.0]);
        let nearest = right(&cut, 1.0 / 3.0);
        assert!(nearest.is_at_most(55) && !nearest.is_at_most(56) && !nearest.is_zero());
        assert_eq!(nearest.times(54), (1.0_f64 / 3.0).next_up());
        assert_eq!(nearest.times(40), (1.0_f64 / 3.0).next_up() / 16_384.0);
        assert_eq!(right(&cut, 0.0).times(0), (1.0_f64 / 3.0).next_up());
        assert_eq!(right(&cut, 1.0).times(0), (2.0_f64 / 3.0).next_up());
    }

    /// Exactly 1/2^40 from 6.5, and a last digit more.
    #[test]
    fn the_promise_ends_at_its_limit() {
        let (cut, limit) = (at_left(10.0, [5.0, 5.0, 15.0, 8.0]), 1.0 / (1u64 << 40) as f64);
        let is_promised = |along: f64| right(&cut, along).is_at_most(PROMISED);
        for (within, beyond) in [
            (6.5 + limit, (6.5 + limit).next_up()),
            (6.5 - limit, (6.5 - limit).next_down()),
            (6.5_f64.next_up(), 6.5 + 2.0 * limit),
        ] {
            assert!(is_promised(within) && !is_promised(beyond), "{within}, {beyond}");
        }
        assert_eq!([40, 41, 42].map(|k| right(&cut, 6.5 + limit).times(k)), [1.0, 2.0, 4.0]);
        assert!(!right(&cut, 6.5 + limit).is_at_most(41));
        assert!(!is_promised(f64::MAX) && !is_promised(-f64::MAX));
        assert_eq!(right(&cut, f64::MAX).times(PROMISED), f64::INFINITY);
    }

    /// A distance far below a double's numbers is told as more than it is.
    #[test]
    fn the_least_distance_is_not_told_as_none() {
        let cut = at_left(0.0, [-LEAST, 0.0, 256.0, LEAST]);
        let least = right(&cut, 0.0);
        assert!(!least.is_zero() && least.is_at_most(1_074) && least.times(PROMISED) > 0.0);
        assert!(least.times(PROMISED) < 1e-200);
    }

    #[test]
    fn a_crossing_that_is_not_finite_is_never_near() {
        let cut = at_left(0.0, [-1.0, -2.0, 1.0, 2.0]);
        for along in [f64::NAN, -f64::NAN, f64::INFINITY, f64::NEG_INFINITY] {
            assert!(distance(&Reading::RIGHT, &cut, along).is_none(), "{along}");
        }
    }

    #[test]
    fn point_8_speaks_of_one_end_in_and_one_out_up_to_256() {
        let is_covered = |bound: f64, ends: [f64; 4]| at_left(bound, ends).is_covered();
        assert!(is_covered(10.0, [5.0, 5.0, 15.0, 8.0]) && is_covered(10.0, [15.0, 8.0, 5.0, 5.0]));
        assert!(is_covered(256.0, [-256.0, 256.0, 256.0, -256.0]));
        assert!(is_covered(0.0, [-LEAST, 0.0, -0.0, 0.0]), "on the line is in");
        assert!(!is_covered(10.0, [10.0, 5.0, 15.0, 8.0]), "both are in");
        assert!(!is_covered(-0.0, [0.0, 5.0, 0.0, 8.0]), "both are on the line");
        assert!(!is_covered(20.0, [5.0, 5.0, 15.0, 8.0]), "both are out");
        for wrong in [256.0_f64.next_up(), -256.0_f64.next_up(), f64::NAN, f64::INFINITY, f64::NEG_INFINITY] {
            assert!(!is_covered(wrong, [5.0, 5.0, 15.0, 8.0]), "{wrong}");
            for place in 0..4 {
                let mut ends = [5.0, 5.0, 15.0, 8.0];
                ends[place] = wrong;
                assert!(!is_covered(10.0, ends), "{wrong} at {place}");
            }
        }
    }

    /// The exact crossing of the first cut is 6.5, the mistaken one too; of the second 5.75 and 7.25.
    #[test]
    fn weights_the_wrong_way_round_tell_where_the_line_is_not_in_the_middle() {
        let mistaken = Reading::with(Mistake::WeightsExchanged);
        let in_the_middle = at_left(10.0, [5.0, 5.0, 15.0, 8.0]);
        assert!(distance(&mistaken, &in_the_middle, 6.5).is_some_and(|distance| distance.is_zero()));
        let nearer = at_left(10.0, [5.0, 5.0, 25.0, 8.0]);
        assert!(right(&nearer, 5.75).is_zero());
        assert!(distance(&mistaken, &nearer, 5.75).is_some_and(|distance| !distance.is_at_most(PROMISED)));
        assert!(distance(&mistaken, &nearer, 7.25).is_some_and(|distance| distance.is_zero()));
    }

    /// The crossing as it is computed: at a third of the edge, and at 0.
    #[test]
    fn mistaken_crossings_are_told_from_the_exact_one() {
        let (at_a_third, at_zero) = (at_left(10.0, [5.0, 5.0, 20.0, 8.0]), at_left(0.0, [-1.0, -2.0, 1.0, 2.0]));
        let keeps_promise = |reading: Reading, cut: &Cut| {
            let distance = reading.distance(cut, reading.crossing(cut));
            distance.is_some_and(|distance| distance.is_at_most(PROMISED))
        };
        assert!(keeps_promise(Reading::RIGHT, &at_a_third) && keeps_promise(Reading::RIGHT, &at_zero));
        for mistake in [
            Mistake::ShareFromEnd,
            Mistake::DivisorTurnedRound,
            Mistake::ShareOf32Bits,
            Mistake::FreeIsAcross,
            Mistake::CrossingMoved,
            Mistake::WeightsExchanged,
        ] {
            assert!(!keeps_promise(Reading::with(mistake), &at_a_third), "{mistake:?}");
        }
        assert!(keeps_promise(Reading::with(Mistake::NanForZero), &at_a_third));
        assert!(!keeps_promise(Reading::with(Mistake::NanForZero), &at_zero));
    }
}
