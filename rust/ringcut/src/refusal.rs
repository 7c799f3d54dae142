//! Why a call is refused, under the numbers of documents 01 and 02.

use core::error::Error;
use core::fmt::{self, Display, Formatter};

/// Why a call was refused. A refused call leaves every lent buffer as it was; the [crate's page](crate) says what of that is proved.
///
/// A frame call gives 11 to 18 and 22, a slice call and a ring call 19 to 22, a mending call 19, 20, 22 and 26. The program `ringcut`
/// prints 10 to 18. What reads a frame here gives those that a frame call would give, and what builds one also 19.
///
/// ```
/// use ringcut::{cut_ring, Bounds, Refusal, RingBuffers};
///
/// let bounds = Bounds { west: 0.0, south: 0.0, east: 10.0, north: 10.0 };
/// let lent = RingBuffers { scratch: &mut [], origin_scratch: &mut [], out: &mut [], out_origins: &mut [] };
/// let refusal = cut_ring(&[5.0, 5.0], bounds, lent).unwrap_err();
/// assert_eq!(refusal, Refusal::Scratch);
/// assert_eq!(refusal.number(), 21);
/// assert_eq!(refusal.to_string(), "refusal 21: a scratch slice or the order slice is too short");
/// ```
#[derive(Clone, Copy, Debug, PartialEq, Eq, Hash)]
pub enum Refusal {
    /// The line is not pairs of hexadecimal digits: the program's alone, no call gives it.
    Digits = 10,
    /// The frame has under 44 or over 5,120 bytes.
    Size = 11,
    /// The frame's kind is neither 3 (polygon) nor 6 (multipolygon).
    Kind = 12,
    /// The frame's flags are over 3.
    Flags = 13,
    /// The frame has over 256 parts, or is a polygon's and has not one part.
    PartCount = 14,
    /// The frame ends before a count or a coordinate is whole.
    Truncated = 15,
    /// A part of the frame has no ring or over 64.
    RingCount = 16,
    /// A ring of the frame has over 4,096 coordinates.
    CoordinateCount = 17,
    /// Bytes follow the frame's last part.
    Trailing = 18,
    /// There is no ring or over 64, or the numbers lent are not two for each coordinate.
    Lengths = 19,
    /// There are over 65,532 coordinates; a slice call and a mending call count those that close rings.
    Coordinates = 20,
    /// A scratch slice, of numbers or of origins, or the order slice is too short.
    Scratch = 21,
    /// An output, of numbers or of origins, or the slice for the lengths of cut rings is too short.
    Output = 22,
    /// Fewer than 4 coordinates remain of a ring that is mended, the closing one counted.
    Short = 26,
}

impl Refusal {
    /// The number of the refusal in documents 01 and 02.
    pub const fn number(self) -> u8 {
        self as u8
    }

    const fn message(self) -> &'static str {
        match self {
            Refusal::Digits => "the line is not pairs of hexadecimal digits",
            Refusal::Size => "the frame has under 44 or over 5,120 bytes",
            Refusal::Kind => "the frame's kind is neither 3 (polygon) nor 6 (multipolygon)",
            Refusal::Flags => "the frame's flags are over 3",
            Refusal::PartCount => "the frame has over 256 parts, or is a polygon's and has not one part",
            Refusal::Truncated => "the frame ends before a count or a coordinate is whole",
            Refusal::RingCount => "a part of the frame has no ring or over 64",
            Refusal::CoordinateCount => "a ring of the frame has over 4,096 coordinates",
            Refusal::Trailing => "bytes follow the frame's last part",
            Refusal::Lengths => "there is no ring or over 64, or the numbers lent are not two for each coordinate",
            Refusal::Coordinates => "there are over 65,532 coordinates",
            Refusal::Scratch => "a scratch slice or the order slice is too short",
            Refusal::Output => "an output or the slice for the lengths of cut rings is too short",
            Refusal::Short => "fewer than 4 coordinates remain",
        }
    }

    /// The refusal with this number, if there is one.
    pub const fn from_number(number: u8) -> Option<Refusal> {
        Some(match number {
            10 => Refusal::Digits,
            11 => Refusal::Size,
            12 => Refusal::Kind,
            13 => Refusal::Flags,
            14 => Refusal::PartCount,
            15 => Refusal::Truncated,
            16 => Refusal::RingCount,
            17 => Refusal::CoordinateCount,
            18 => Refusal::Trailing,
            19 => Refusal::Lengths,
            20 => Refusal::Coordinates,
            21 => Refusal::Scratch,
            22 => Refusal::Output,
            26 => Refusal::Short,
            _ => return None,
        })
    }

    /// The refusal with this number that the program prints, if there is one: it lends every frame room enough.
    pub(crate) fn from_printed(number: u8) -> Option<Refusal> {
        Refusal::from_number(number).filter(|_| (10..=18).contains(&number))
    }

    /// The refusal that a negative code of a call stands for: minus its number.
    pub(crate) fn from_code(code: i64) -> Refusal {
        let number = code.checked_neg().and_then(|number| u8::try_from(number).ok());
        match number.and_then(Refusal::from_number) {
            None | Some(Refusal::Digits) => unreachable!("the library answered {code}, which its contract rules out"),
            Some(refusal) => refusal,
        }
    }
}

impl Display for Refusal {
    fn fmt(&self, f: &mut Formatter) -> fmt::Result {
        write!(f, "refusal {}: {}", self.number(), self.message())
    }
}

impl Error for Refusal {}

#[cfg(test)]
mod tests {
    extern crate std;

    use std::panic::catch_unwind;

    use super::Refusal;

    #[test]
    fn a_code_is_minus_the_number() {
        for number in (11..=22).chain([26]) {
            assert_eq!(Refusal::from_code(-number).number(), number as u8);
        }
    }

    #[test]
    fn other_numbers_are_no_refusals() {
        for number in [23, 24, 25, 27, 256 + 26] {
            assert!(catch_unwind(|| Refusal::from_code(-number)).is_err(), "{number}");
        }
    }

    #[test]
    #[should_panic = "the library answered -10, which its contract rules out"]
    fn the_programs_own_refusal_is_no_code() {
        Refusal::from_code(-10);
    }
}
