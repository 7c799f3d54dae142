//! Why an overlay is wanted: document 01's reasons, split and told with positions as in document 02, point 1.

use std::fmt::{self, Display};

/// A reason's number, and the positions that it tells: of a repeated corner its own first, of edges that cross the lower and
/// then the higher number. A position that doesn't apply is 0.
#[derive(Clone, Copy, Debug, PartialEq, Eq)]
pub struct Reason {
    pub number: u8,
    pub first: u32,
    pub second: u32,
}

impl Reason {
    /// A reason that has no position to tell.
    pub const fn without_positions(number: u8) -> Reason {
        Reason { number, first: 0, second: 0 }
    }

    /// Whether there is such a reason: its number is one, positions that don't apply are 0, and the lower of two edges is first.
    pub fn is_possible(&self) -> bool {
        match self.number {
            1..=6 => self.first == 0 && self.second == 0,
            7 | 9 => self.second == 0,
            8 | 10 => self.first < self.second,
            _ => false,
        }
    }

    /// Its share of a slice call's one number.
    pub fn code(&self) -> i64 {
        (i64::from(self.number) << 8) + (i64::from(self.first) << 16) + (i64::from(self.second) << 40)
    }

    /// The reason in a slice call's one number, whose answer is an overlay.
    pub fn of_code(code: i64) -> Reason {
        Reason { number: (code >> 8) as u8, first: (code >> 16 & 0xff_ffff) as u32, second: (code >> 40) as u32 }
    }
}

/// Document 01's number of a reason: the equality with the Rust and the worked cases speak of the reasons merged back.
pub fn merged(number: u8) -> u8 {
    match number {
        7 | 8 => 1,
        9 | 10 => 2,
        _ => number,
    }
}

impl Display for Reason {
    fn fmt(&self, f: &mut fmt::Formatter) -> fmt::Result {
        let Reason { number, first, second } = self;
        write!(f, "reason {number}")?;
        match number {
            7 => write!(f, ": corner {first} is repeated"),
            8 => write!(f, ": edges {first} and {second} cross"),
            9 => write!(f, ": corner {first} of the cut is repeated"),
            10 => write!(f, ": edges {first} and {second} of the cut cross"),
            _ => Ok(()),
        }
    }
}

#[cfg(test)]
mod tests {
    use super::*;

    #[test]
    fn reasons_are_said_in_words() {
        let words = |number: u8, first: u32, second: u32| Reason { number, first, second }.to_string();
        assert_eq!(words(1, 0, 0), "reason 1");
        assert_eq!(words(6, 0, 0), "reason 6");
        assert_eq!(words(7, 3, 0), "reason 7: corner 3 is repeated");
        assert_eq!(words(8, 0, 4), "reason 8: edges 0 and 4 cross");
        assert_eq!(words(9, 0, 0), "reason 9: corner 0 of the cut is repeated");
        assert_eq!(words(10, 0, 3), "reason 10: edges 0 and 3 of the cut cross");
    }

    #[test]
    fn positions_that_do_not_apply_are_no_reason() {
        let is_possible = |number: u8, first: u32, second: u32| Reason { number, first, second }.is_possible();
        assert!(
            (1..=6).all(|number| is_possible(number, 0, 0) && !is_possible(number, 1, 0) && !is_possible(number, 0, 1))
        );
        for (repeated, crossing) in [(7, 8), (9, 10)] {
            assert!(is_possible(repeated, 0, 0) && is_possible(repeated, 3, 0) && !is_possible(repeated, 3, 4));
            assert!(is_possible(crossing, 0, 2) && !is_possible(crossing, 0, 0) && !is_possible(crossing, 4, 2));
        }
        assert!(!is_possible(0, 0, 0) && !is_possible(11, 0, 0));
    }

    /// 331,755 is the highest position that there is, B(65,532) being 331,757 coordinates with the closing one; it needs more
    /// than 16 bits.
    #[test]
    fn a_code_holds_both_positions() {
        let reason = Reason { number: 10, first: 331_753, second: 331_755 };
        assert_eq!(reason.code(), 10 * 256 + 331_753 * 65_536 + 331_755 * 1_099_511_627_776);
        assert_eq!(Reason::of_code(5 + reason.code()), reason);
    }

    #[test]
    fn merged_reasons_are_those_of_document_01() {
        assert_eq!([1, 2, 3, 4, 5, 6, 7, 8, 9, 10].map(merged), [1, 2, 3, 4, 5, 6, 1, 1, 2, 2]);
    }
}
