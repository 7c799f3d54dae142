//! Document 02, point 7: a ring without its repeated corners, and the refusals of the call that writes it.

use crate::ring::vertices;
use crate::{Mistake, Reading, Vertex};

/// A mended ring has at least so many coordinates.
const FEWEST: usize = 4;

/// Under this a difference is near, as `near` has it. Two mistakes compare something else with it.
const LIMIT: f64 = 1e-10;

impl Reading {
    /// The count of coordinates that a mending call writes, or minus the number of its refusal.
    pub fn mend_call(&self, ring: &[f64], out: &mut [f64]) -> i64 {
        let lent = vertices(&ring[..ring.len() / 2 * 2]);
        let kept = self.mended(&lent);
        match self.mend_refusal(ring.len(), &lent, &kept, out.len()) {
            Some(refusal) => {
                if refusal == 26 && self.makes(Mistake::WritesBeforeShort) {
                    self.write_kept(&lent, &kept, out);
                }
                -i64::from(refusal)
            }
            None => {
                self.write_kept(&lent, &kept, out);
                let doubled = if self.makes(Mistake::AnswersNumbers) { 2 } else { 1 };
                doubled * kept.len() as i64
            }
        }
    }

    /// 19 for an odd count of numbers, 20 for the closed ring, 22 for an output shorter than it, 26 for under four that are kept.
    fn mend_refusal(&self, numbers: usize, lent: &[Vertex], kept: &[Vertex], out: usize) -> Option<u8> {
        let asked = 2 * if self.makes(Mistake::RoomByKept) { kept.len() } else { self.length_for_room(lent) };
        let mut tests = [
            (19, numbers % 2 == 1),
            (20, self.too_many(self.length_for_limit(lent, kept))),
            (22, out < asked),
            (26, self.are_too_few(lent, kept)),
        ];
        if self.makes(Mistake::RoomBeforeLimit) {
            tests.swap(1, 2);
        }
        if self.makes(Mistake::ShortBeforeRoom) {
            tests.swap(2, 3);
        }
        if self.makes(Mistake::OddLast) {
            tests.rotate_left(1);
        }
        let refusal = tests.into_iter().find(|&(_, applies)| applies).map(|(refusal, _)| refusal);
        // Some mistakes ask for less room than they then need.
        refusal.or((out < 2 * kept.len()).then_some(22))
    }

    fn length_for_limit(&self, lent: &[Vertex], kept: &[Vertex]) -> usize {
        if self.makes(Mistake::LimitUnclosed) {
            lent.len()
        } else if self.makes(Mistake::LimitByKept) {
            kept.len()
        } else {
            self.closed_length(lent)
        }
    }

    fn are_too_few(&self, lent: &[Vertex], kept: &[Vertex]) -> bool {
        let fewest = if self.makes(Mistake::ThreeAreEnough) {
            3
        } else if self.makes(Mistake::FourBesidesClosing) {
            5
        } else {
            FEWEST
        };
        let is_passed_over = lent.is_empty() && self.makes(Mistake::NoneOfNone);
        kept.len() < fewest && !is_passed_over
    }

    /// The coordinates of the closed ring that are kept.
    fn mended(&self, lent: &[Vertex]) -> Vec<Vertex> {
        let mut kept = self.kept(&self.ring_to_mend(lent));
        if self.makes(Mistake::MendsBeforeClosing) || self.makes(Mistake::ClosesMendedAgain) {
            self.close(&mut kept);
        }
        if self.makes(Mistake::ClosesWithFirst) {
            if let [first, .., closing] = &mut kept[..] {
                *closing = *first;
            }
        }
        kept
    }

    /// The ring closed, as in document 01.
    fn ring_to_mend(&self, lent: &[Vertex]) -> Vec<Vertex> {
        let mut ring = lent.to_vec();
        let stays_open = match (lent.first(), lent.last()) {
            (Some(&first), Some(&last)) => self.makes(Mistake::NanEqualsNan) && look_equal(first, last),
            _ => true,
        };
        if !stays_open && !self.makes(Mistake::LeavesOpen) && !self.makes(Mistake::MendsBeforeClosing) {
            self.close(&mut ring);
        }
        ring
    }

    /// From the first one, which is kept, each that is not near the last kept; and the closing one, near or not.
    fn kept(&self, ring: &[Vertex]) -> Vec<Vertex> {
        let Some((&closing, before)) = ring.split_last() else {
            return Vec::new();
        };
        let mut kept: Vec<Vertex> = Vec::new();
        let mut seen: Option<Vertex> = None;
        for &vertex in &before[self.left_out_in_front(before)..] {
            let compared = if self.makes(Mistake::ComparesWithLastSeen) { seen } else { kept.last().copied() };
            let is_near = compared.is_some_and(|compared| self.is_repeat(vertex, compared));
            if is_near && self.makes(Mistake::KeepsLastOfRun) {
                kept.pop();
            }
            if !is_near || self.makes(Mistake::KeepsLastOfRun) {
                kept.push(vertex);
            }
            seen = Some(vertex);
        }
        let is_repeat = kept.last().is_some_and(|&last| self.is_repeat(closing, last));
        if !(is_repeat && self.makes(Mistake::DropsClosing)) {
            kept.push(closing);
        }
        kept
    }

    /// How many coordinates at the front are not walked over: rightly none.
    fn left_out_in_front(&self, before_closing: &[Vertex]) -> usize {
        let (Some(&first), Some(&last)) = (before_closing.first(), before_closing.last()) else {
            return 0;
        };
        let is_near_last = before_closing.len() > 1 && self.is_repeat(first, last);
        usize::from(self.makes(Mistake::BeginsWithSecond) || (is_near_last && self.makes(Mistake::DropsFirstNearLast)))
    }

    /// Whether two coordinates differ by less than 1e-10 in x and in y.
    fn is_repeat(&self, a: Vertex, b: Vertex) -> bool {
        let (x, y) = (self.repeats(a.x, b.x), self.repeats(a.y, b.y));
        if self.makes(Mistake::NearInOneAxis) {
            return x || y;
        }
        if self.makes(Mistake::NearByDistance) {
            return (a.x - b.x).hypot(a.y - b.y) < LIMIT;
        }
        x && y
    }

    /// The same in one axis.
    fn repeats(&self, a: f64, b: f64) -> bool {
        if self.makes(Mistake::NearIsEqual) {
            return a == b;
        }
        let is_taken_for_near = (self.makes(Mistake::EqualIsNear) && a == b)
            || (self.makes(Mistake::NanIsNear) && (a - b).is_nan())
            || (self.makes(Mistake::DifferenceUnrounded) && is_under_before_rounding(a, b));
        self.near(a, b) || is_taken_for_near
    }

    /// The kept coordinates from the front of the output; what stood behind them stays.
    fn write_kept(&self, lent: &[Vertex], kept: &[Vertex], out: &mut [f64]) {
        if self.makes(Mistake::ClearsPastKept) {
            out[..2 * self.closed_length(lent)].fill(0.0);
        }
        if self.makes(Mistake::LeavesCopyPastKept) {
            write(&self.ring_to_mend(lent), out);
        }
        write(kept, out);
    }
}

fn write(ring: &[Vertex], out: &mut [f64]) {
    for (place, vertex) in out.chunks_exact_mut(2).zip(ring) {
        place.copy_from_slice(&[vertex.x, vertex.y]);
    }
}

/// Equal, or NaN where the other is.
fn look_equal(a: Vertex, b: Vertex) -> bool {
    let look_equal = |a: f64, b: f64| a == b || (a.is_nan() && b.is_nan());
    look_equal(a.x, b.x) && look_equal(a.y, b.y)
}

/// Whether the difference rounds to 1e-10 and was less before: what the rounding left out is of the other sign.
fn is_under_before_rounding(a: f64, b: f64) -> bool {
    let difference = a - b;
    let b_again = a - difference;
    let left_out = (a - (difference + b_again)) + (b_again - b);
    difference.abs() == LIMIT && difference * left_out < 0.0
}

#[cfg(test)]
mod tests {
    use super::*;

    /// The answer to a call with room for the closed ring and one number more, and the numbers of the mended ring.
    fn mended(reading: &Reading, ring: &[f64]) -> (i64, Vec<f64>) {
        let mut out = vec![7.0; ring.len() + 3];
        let answer = reading.mend_call(ring, &mut out);
        out.truncate(2 * usize::try_from(answer).unwrap_or(0));
        (answer, out)
    }

    #[test]
    fn corners_near_the_last_kept_are_dropped() {
        let right = |ring: &[f64]| mended(&Reading::RIGHT, ring);
        let square = [2., 2., 8., 2., 8., 8., 2., 8., 2., 2.];
        assert_eq!(right(&square), (5, square.to_vec()));
        assert_eq!(right(&square[..8]), (5, square.to_vec()));
        let repeated = [2., 2., 2., 2., 8., 2., 8., 2., 8., 2., 8., 8., 2., 8., 2., 8., 2., 2.];
        assert_eq!(right(&repeated), (5, square.to_vec()));
        let creeping = [0., 0., 6e-11, 0., 12e-11, 0., 18e-11, 0., 24e-11, 0., 1., 1., 0., 0.];
        assert_eq!(right(&creeping), (5, vec![0., 0., 12e-11, 0., 24e-11, 0., 1., 1., 0., 0.]));
    }

    #[test]
    fn the_closing_one_is_kept_where_it_is_near_the_one_before() {
        let ring = [2., 2., 8., 2., 8., 8., 2., 2., 2., 2.];
        assert_eq!(mended(&Reading::RIGHT, &ring), (5, ring.to_vec()));
        let near = [2., 2., 8., 2., 8., 8., 2. + 5e-11, 2.];
        assert_eq!(mended(&Reading::RIGHT, &near), (5, [&near[..], &[2., 2.]].concat()));
    }

    #[test]
    fn refusals_come_in_their_order() {
        let answer = |ring: &[f64], room: usize| Reading::RIGHT.mend_call(ring, &mut vec![7.0; room]);
        let long = vec![1.0; 2 * 65_533];
        assert_eq!([answer(&[1.0], 0), answer(&[long.clone(), vec![1.0]].concat(), 0)], [-19, -19]);
        assert_eq!([answer(&long, 0), answer(&long, 2 * 65_533)], [-20, -20]);
        assert_eq!([answer(&long[2..], 2 * 65_532 - 1), answer(&long[2..], 2 * 65_532)], [-22, -26]);
        assert_eq!([answer(&[], 0), answer(&[1., 2.], 1), answer(&[1., 2.], 2)], [-26, -22, -26]);
        assert_eq!([answer(&[f64::NAN, 2.], 3), answer(&[f64::NAN, 2.], 4)], [-22, -26]);
        assert_eq!([answer(&[0., 0., 1., 0., 1., 1.], 7), answer(&[0., 0., 1., 0., 1., 1.], 8)], [-22, 4]);
    }

    /// A NaN in the first coordinate has it appended, however the ring ends, and is near nothing.
    #[test]
    fn a_ring_that_begins_with_a_nan_grows() {
        let (answer, numbers) = mended(&Reading::RIGHT, &[f64::NAN, 2., f64::NAN, 2., f64::NAN, 2.]);
        assert_eq!((answer, numbers.len()), (4, 8));
        let infinite = [f64::INFINITY, 2., f64::INFINITY, 2., f64::INFINITY, 2., f64::INFINITY, 2.];
        assert_eq!(mended(&Reading::RIGHT, &infinite), (4, infinite.to_vec()));
    }

    /// 1e-10 less 1e-30 rounds to 1e-10, which is not under it.
    #[test]
    fn the_difference_is_rounded_before_it_is_compared() {
        assert!(!Reading::RIGHT.repeats(1e-10, 1e-30) && !Reading::RIGHT.repeats(1e-10, 0.0));
        assert!(Reading::RIGHT.repeats(1e-10, 1e-26) && Reading::RIGHT.repeats(1e-10_f64.next_down(), 0.0));
        let unrounded = Reading::with(Mistake::DifferenceUnrounded);
        assert!(
            unrounded.repeats(1e-10, 1e-30) && unrounded.repeats(-1e-10, -1e-30) && unrounded.repeats(1e-30, 1e-10)
        );
        assert!(
            !unrounded.repeats(1e-10, -1e-30) && !unrounded.repeats(-1e-10, 1e-30) && !unrounded.repeats(1e-10, 0.0)
        );
    }
}
