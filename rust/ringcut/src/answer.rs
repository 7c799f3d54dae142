//! What a slice call answers.

use crate::room::MOST_CUT;
use crate::{Reason, Refusal};

/// No exterior has more edges, cut or not: a ring has one fewer than it has corners, the closing one counted. A repeated corner has a
/// lower number than the last edge: for it this limit is looser by one than need be.
const MOST_EDGES: usize = MOST_CUT - 1;

/// What becomes of a polygon.
#[derive(Clone, Copy, Debug, PartialEq, Eq, Hash)]
pub enum Answer {
    /// Nothing of it is in the bounds.
    Nothing,
    /// It can't be cut: a coordinate is not finite, or an overlay is wanted and one is of magnitude 1e150 or more.
    Dropped,
    /// It lies inside the bounds as it is.
    Unchanged,
    /// It was cut. The rings stand at the front of the output, exterior first, how many coordinates each has at the front of
    /// the slice for their lengths, and where each coordinate came from at the front of the slice for their origins.
    Cut {
        /// How many rings.
        rings: usize,
    },
    /// A cut would not do: the polygon is for the host's overlay.
    Overlay(Reason),
}

impl Answer {
    /// How many polygons the answer has dropped.
    pub const fn guard_count(self) -> u16 {
        match self {
            Answer::Dropped => 1,
            _ => 0,
        }
    }

    /// What a code stands for: the answer, 2^8 times an overlay's reason, 2^16 times a cut's rings or an overlay's first position and
    /// 2^40 times its second, or minus a refusal.
    pub(crate) fn from_code(code: i64) -> Result<Answer, Refusal> {
        if code < 0 {
            return Err(Refusal::from_code(code));
        }
        let field = |shifted: i64| (shifted & 0xff_ffff) as usize;
        let answer = match (code & 0xff, code >> 8 & 0xff, field(code >> 16), field(code >> 40)) {
            (0, 0, 0, 0) => Some(Answer::Nothing),
            (1, 0, 0, 0) => Some(Answer::Dropped),
            (2, 0, 0, 0) => Some(Answer::Unchanged),
            (4, 0, rings @ 1..=64, 0) => Some(Answer::Cut { rings }),
            (5, reason, first @ 0..MOST_EDGES, second @ 0..MOST_EDGES) => {
                Reason::from_numbers(reason, first, second).map(Answer::Overlay)
            }
            _ => None,
        };
        Ok(answer.unwrap_or_else(|| unreachable!("the library answered {code}, which its contract rules out")))
    }
}

#[cfg(test)]
mod tests {
    extern crate std;

    use std::panic::catch_unwind;

    use super::Answer;
    use crate::{Issue, Reason, Refusal};

    /// By what a code has an overlay's two positions multiplied.
    const FIRST: i64 = 1 << 16;
    const SECOND: i64 = 1 << 40;

    #[test]
    fn a_code_holds_the_answer_the_reason_and_the_rings() {
        assert_eq!(Answer::from_code(0), Ok(Answer::Nothing));
        assert_eq!(Answer::from_code(1), Ok(Answer::Dropped));
        assert_eq!(Answer::from_code(2), Ok(Answer::Unchanged));
        for rings in 1..=64 {
            assert_eq!(Answer::from_code(4 + 65_536 * rings), Ok(Answer::Cut { rings: rings as usize }));
        }
        for number in 1..=6 {
            let Ok(Answer::Overlay(reason)) = Answer::from_code(5 + 256 * number) else {
                panic!("reason {number} is no overlay's");
            };
            assert_eq!(i64::from(reason.number()), number);
        }
        assert_eq!(Answer::from_code(-19), Err(Refusal::Lengths));
    }

    #[test]
    fn a_code_holds_an_overlays_positions() {
        for (of_exterior, repeated, crossing) in [(Reason::Input as fn(Issue) -> Reason, 7, 8), (Reason::Cut, 9, 10)] {
            let overlay = |issue| Ok(Answer::Overlay(of_exterior(issue)));
            for corner in [0, 1, 0xff, 0x1_0000, 331_754] {
                let code = 5 + 256 * repeated + FIRST * corner;
                assert_eq!(Answer::from_code(code), overlay(Issue::Repeated { corner: corner as usize }));
            }
            for (lower, higher) in [(0, 1), (0, 4), (0xff, 0x100), (0xffff, 0x1_0000), (331_753, 331_755)] {
                let code = 5 + 256 * crossing + FIRST * lower + SECOND * higher;
                let issue = Issue::Crossing { lower: lower as usize, higher: higher as usize };
                assert_eq!(Answer::from_code(code), overlay(issue));
            }
        }
    }

    #[test]
    fn only_dropped_has_a_guard_count() {
        for (code, count) in [(0, 0), (1, 1), (2, 0), (4 + 65_536, 0), (5 + 256, 0), (5 + 256 * 7 + FIRST, 0)] {
            assert_eq!(Answer::from_code(code).unwrap().guard_count(), count, "code {code}");
        }
    }

    #[test]
    fn other_numbers_are_no_codes() {
        let past_each_field = [3, 6, 1 + 256, 2 + 65_536, 4, 4 + 65 * 65_536, 5, 5 + 256 * 11, 5 + 256 + 65_536, -23];
        let positions_elsewhere = [SECOND, 4 + 65_536 + SECOND, 5 + 256 + SECOND, 5 + 256 * 7 + SECOND];
        let no_edges = [5 + 256 * 8, 5 + 256 * 8 + 2 * FIRST + 2 * SECOND, 5 + 256 * 10 + 2 * FIRST + SECOND];
        let past_each_ring =
            [5 + 256 * 7 + 331_756 * FIRST, 5 + 256 * 8 + 331_756 * SECOND, 5 + 256 * 9 + (FIRST << 23)];
        for code in past_each_field.into_iter().chain(positions_elsewhere).chain(no_edges).chain(past_each_ring) {
            assert!(catch_unwind(|| Answer::from_code(code)).is_err(), "code {code}");
        }
    }
}
