//! Answers to frames, read from their bytes.

use core::fmt::{self, Debug, Formatter};
use core::iter::FusedIterator;

use crate::cursor::Cursor;
use crate::frame::MOST_PARTS;
use crate::{AnswerError, Reason, Refusal, Rings, Vertex};

/// What becomes of a frame's polygon or of the parts of its multipolygon, read from the answer's bytes.
///
/// | bytes | an answer, numbers little-endian |
/// |---|---|
/// | 1 | 0 nothing, 1 dropped, 2 unchanged, 3 listed parts |
/// | 2 | the [guard count](FrameAnswer::guard_count) |
/// | 2 | how many parts are listed; of each: |
/// | 2 | its number in the frame, from 0 |
/// | 1, 1 | 2 unchanged, 4 cut, 5 an overlay is wanted; the overlay's [reason](Reason::number), else 0 |
/// | 2, 2 | of an overlay: the two [positions](Reason::positions) that its reason has |
/// | 2 | of a cut: how many rings, exterior first; of each: |
/// | 2 | how many coordinates; of each: |
/// | 8, 8, 2 | x, y and its [origin](crate::Origin::number); a NaN has the bits 7ff8000000000000 |
///
/// What is read needs no frame beside it. So in bytes that came from elsewhere, a part's number, a position or an origin may lie beyond
/// what was sent: look these up with [`get`](slice::get).
///
/// ```
/// use ringcut::{answer_frame, Bounds, Flags, FrameAnswer, FrameBuilder, Kind, PartAnswer, LONGEST_FRAME, MOST_FRAME_OUTPUT};
///
/// let bounds = Bounds { west: 0.0, south: 0.0, east: 10.0, north: 10.0 };
/// let mut room = [0; LONGEST_FRAME];
/// let mut builder = FrameBuilder::new(Kind::MultiPolygon, Flags::default(), bounds, 0.0, &mut room)?;
/// // Inside the bounds; inside with a hole across the east bound; across the east bound; apart from the bounds.
/// builder.part([[2.0, 2.0, 8.0, 2.0, 8.0, 8.0]])?;
/// builder.part([[5.0, 5.0, 8.0, 5.0, 8.0, 8.0], [6.0, 5.5, 12.0, 5.5, 12.0, 6.5]])?;
/// builder.part([[5.0, 5.0, 15.0, 5.0, 15.0, 8.0]])?;
/// builder.part([[22.0, 2.0, 28.0, 2.0, 28.0, 8.0]])?;
///
/// let mut out = [0; MOST_FRAME_OUTPUT];
/// let FrameAnswer::Listed { parts, guard_count: 0 } = answer_frame(builder.finish()?, &mut out)? else {
///     panic!("parts are listed");
/// };
/// let mut said = Vec::new();
/// for part in parts {
///     said.push(match part.answer {
///         PartAnswer::Unchanged => format!("part {} is unchanged", part.number),
///         PartAnswer::Cut(rings) => {
///             let vertices: Vec<usize> = rings.map(|ring| ring.len()).collect();
///             format!("part {} is cut to rings of {vertices:?}", part.number)
///         }
///         PartAnswer::Overlay(reason) => format!("part {}: {reason}", part.number),
///     });
/// }
/// assert_eq!(
///     said,
///     [
///         "part 0 is unchanged",
///         "part 1 is cut to rings of [4, 4]",
///         "part 2: an edge of the cut exterior runs along the east bound"
///     ]
/// );
/// # Ok::<(), ringcut::Refusal>(())
/// ```
#[derive(Clone, Debug)]
pub enum FrameAnswer<'a> {
    /// Nothing of it is left in the bounds.
    Nothing {
        /// How many of its parts were dropped for a coordinate that an overlay can't take.
        guard_count: u16,
    },
    /// It was dropped as a whole: a coordinate is not finite, or it is a polygon that wants an overlay and has a coordinate that this
    /// can't take.
    Dropped,
    /// It lies inside the bounds as it is, as a whole.
    Unchanged,
    /// Some of its parts are left. The others are outside or were dropped.
    Listed {
        /// How many of its parts were dropped for a coordinate that an overlay can't take.
        guard_count: u16,
        /// What became of those that are left.
        parts: ListedParts<'a>,
    },
}

/// A part that something is left of.
#[derive(Clone, Debug)]
pub struct ListedPart<'a> {
    /// Which part of the frame it is, from 0.
    pub number: usize,
    /// What became of it.
    pub answer: PartAnswer<'a>,
}

/// What became of a listed part.
#[derive(Clone, Debug)]
pub enum PartAnswer<'a> {
    /// It lies inside the bounds as it is.
    Unchanged,
    /// It was cut to these rings, exterior first.
    Cut(Rings<'a, Vertex>),
    /// A cut would not do: the part is for the host's overlay.
    Overlay(Reason),
}

impl<'a> FrameAnswer<'a> {
    /// Reads an answer that a frame call has written.
    pub fn read(bytes: &'a [u8]) -> Result<FrameAnswer<'a>, AnswerError> {
        let mut cursor = Cursor { rest: bytes };
        let Head { number, guard_count, listed } = Head::read(&mut cursor)?;
        let has_its_guard_count = match number {
            // A part that was dropped is not listed.
            0 | 3 => usize::from(guard_count) + usize::from(listed) <= MOST_PARTS,
            1 => guard_count == 1,
            2 => guard_count == 0,
            _ => return Err(AnswerError::Number),
        };
        if !has_its_guard_count {
            return Err(AnswerError::GuardCount);
        }
        if (number == 3) != (listed > 0) {
            return Err(AnswerError::ListedCount);
        }
        let parts = ListedParts::read(&mut cursor, listed)?;
        if !cursor.rest.is_empty() {
            return Err(AnswerError::Trailing);
        }
        Ok(match number {
            0 => FrameAnswer::Nothing { guard_count },
            1 => FrameAnswer::Dropped,
            2 => FrameAnswer::Unchanged,
            _ => FrameAnswer::Listed { guard_count, parts },
        })
    }

    /// Reads what the program `ringcut` prints for a line, once the digits are bytes: an answer, or a refusal in its place, which is its
    /// number and four zeros.
    ///
    /// ```
    /// use ringcut::{AnswerError, FrameAnswer, Refusal};
    ///
    /// assert!(matches!(FrameAnswer::read_printed(&[2, 0, 0, 0, 0]), Ok(Ok(FrameAnswer::Unchanged))));
    /// assert_eq!(FrameAnswer::read_printed(&[11, 0, 0, 0, 0]).unwrap().unwrap_err(), Refusal::Size);
    /// assert_eq!(FrameAnswer::read_printed(&[11, 0, 0]).unwrap_err(), AnswerError::Truncated);
    /// ```
    pub fn read_printed(bytes: &'a [u8]) -> Result<Result<FrameAnswer<'a>, Refusal>, AnswerError> {
        let mut cursor = Cursor { rest: bytes };
        let Head { number, guard_count, listed } = Head::read(&mut cursor)?;
        let Some(refusal) = Refusal::from_printed(number) else {
            return FrameAnswer::read(bytes).map(Ok);
        };
        match (guard_count, listed, cursor.rest) {
            (0, 0, []) => Ok(Err(refusal)),
            (0, 0, _) => Err(AnswerError::Trailing),
            (0, _, _) => Err(AnswerError::ListedCount),
            _ => Err(AnswerError::GuardCount),
        }
    }

    /// How many polygons were dropped: 1 where the whole was, else how many parts were.
    pub const fn guard_count(&self) -> u16 {
        match self {
            FrameAnswer::Nothing { guard_count } | FrameAnswer::Listed { guard_count, .. } => *guard_count,
            FrameAnswer::Dropped => 1,
            FrameAnswer::Unchanged => 0,
        }
    }
}

/// What an answer begins with.
struct Head {
    number: u8,
    guard_count: u16,
    listed: u16,
}

impl Head {
    fn read(cursor: &mut Cursor) -> Result<Head, AnswerError> {
        let [number] = cursor.take().ok_or(AnswerError::Truncated)?;
        let mut count = || cursor.count().ok_or(AnswerError::Truncated);
        Ok(Head { number, guard_count: count()?, listed: count()? })
    }
}

impl<'a> PartAnswer<'a> {
    fn read(cursor: &mut Cursor<'a>) -> Result<PartAnswer<'a>, AnswerError> {
        match cursor.take().ok_or(AnswerError::Truncated)? {
            [2, 0] => Ok(PartAnswer::Unchanged),
            [4, 0] => Ok(PartAnswer::Cut(Rings::read(cursor)?)),
            [5, number] => {
                let mut position = || cursor.count().map(usize::from).ok_or(AnswerError::Truncated);
                let (first, second) = (position()?, position()?);
                let reason = Reason::from_numbers(number.into(), first, second).ok_or(AnswerError::Reason)?;
                Ok(PartAnswer::Overlay(reason))
            }
            _ => Err(AnswerError::PartAnswer),
        }
    }
}

/// The listed parts of an answer, one at a time, by rising numbers. [`len`](ExactSizeIterator::len) says how many are left.
#[derive(Clone)]
pub struct ListedParts<'a> {
    left: usize,
    /// What the number of the next is at least.
    lowest: usize,
    cursor: Cursor<'a>,
}

impl<'a> ListedParts<'a> {
    /// Goes through the parts that begin at the cursor, and leaves it behind them.
    fn read(cursor: &mut Cursor<'a>, count: u16) -> Result<ListedParts<'a>, AnswerError> {
        let parts = ListedParts { left: count.into(), lowest: 0, cursor: *cursor };
        let mut ahead = parts.clone();
        for _ in 0..count {
            ahead.read_next()?;
        }
        *cursor = ahead.cursor;
        Ok(parts)
    }

    fn read_next(&mut self) -> Result<ListedPart<'a>, AnswerError> {
        let number = self.cursor.count().ok_or(AnswerError::Truncated)?.into();
        if !(self.lowest..MOST_PARTS).contains(&number) {
            return Err(AnswerError::PartNumber);
        }
        self.lowest = number + 1;
        Ok(ListedPart { number, answer: PartAnswer::read(&mut self.cursor)? })
    }
}

impl<'a> Iterator for ListedParts<'a> {
    type Item = ListedPart<'a>;

    fn next(&mut self) -> Option<ListedPart<'a>> {
        self.left = self.left.checked_sub(1)?;
        // It has been read once, so it is read again.
        self.read_next().ok()
    }

    fn size_hint(&self) -> (usize, Option<usize>) {
        (self.left, Some(self.left))
    }
}

impl ExactSizeIterator for ListedParts<'_> {}
impl FusedIterator for ListedParts<'_> {}

impl Debug for ListedParts<'_> {
    fn fmt(&self, f: &mut Formatter) -> fmt::Result {
        f.debug_list().entries(self.clone()).finish()
    }
}
