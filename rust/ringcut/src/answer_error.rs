//! Why bytes are no answer.

use core::error::Error;
use core::fmt::{self, Display, Formatter};

use crate::rings::RingsError;

/// Why bytes are no answer to a frame: the first that is found as they are gone through from the front. As text it is a sentence.
///
/// What stands together is whole before it is looked at: the five bytes before the parts; of a part its number, then the two bytes of its
/// answer and its reason; an overlay's two positions, before its reason is looked at. So `[9]` is [`Truncated`](AnswerError::Truncated),
/// and `[9, 0, 0, 0, 0]` has the wrong [`Number`](AnswerError::Number).
///
/// No answer of a frame call has any of these. Bytes that were cut off, mixed up or changed on their way may, and then nothing of them
/// is to be trusted; bytes without any of these may still be those of another answer.
#[derive(Clone, Copy, Debug, PartialEq, Eq, Hash)]
pub enum AnswerError {
    /// It ends before a count, a number or a coordinate is whole.
    Truncated,
    /// Its first byte is not 0 to 3, nor, in what the program prints, a refusal's that the program gives.
    Number,
    /// Its guard count is not the one that such an answer has, 1 where all is dropped and 0 where all is unchanged or refused; or it
    /// makes over 256 parts with those that are listed.
    GuardCount,
    /// Parts are listed in an answer that has none, or none in one that has some.
    ListedCount,
    /// The number of a part is over 255, or not higher than that of the part before it.
    PartNumber,
    /// A part is neither unchanged nor cut nor wants an overlay, or it has a reason and wants none.
    PartAnswer,
    /// There is no such reason for an overlay, or its positions are not such as it has.
    Reason,
    /// A cut has no ring or over 64.
    RingCount,
    /// A ring of a cut has fewer than 4 coordinates or over 4,096.
    CoordinateCount,
    /// Bytes follow its last part.
    Trailing,
}

impl Display for AnswerError {
    fn fmt(&self, f: &mut Formatter) -> fmt::Result {
        f.write_str(match self {
            AnswerError::Truncated => "the answer ends before a count, a number or a coordinate is whole",
            AnswerError::Number => "the first byte of the answer is none that an answer begins with",
            AnswerError::GuardCount => {
                "the guard count is none that such an answer has, or makes over 256 parts with those listed"
            }
            AnswerError::ListedCount => "parts are listed in an answer that has none, or none in one that has some",
            AnswerError::PartNumber => {
                "the number of a part is over 255, or not higher than that of the part before it"
            }
            AnswerError::PartAnswer => {
                "a part is neither unchanged nor cut nor wants an overlay, or has a reason and wants none"
            }
            AnswerError::Reason => "there is no such reason for an overlay, or its positions are not such as it has",
            AnswerError::RingCount => "a cut has no ring or over 64",
            AnswerError::CoordinateCount => "a ring of a cut has fewer than 4 coordinates or over 4,096",
            AnswerError::Trailing => "bytes follow the answer's last part",
        })
    }
}

impl Error for AnswerError {}

impl From<RingsError> for AnswerError {
    fn from(error: RingsError) -> AnswerError {
        match error {
            RingsError::Truncated => AnswerError::Truncated,
            RingsError::RingCount => AnswerError::RingCount,
            RingsError::CoordinateCount => AnswerError::CoordinateCount,
        }
    }
}
