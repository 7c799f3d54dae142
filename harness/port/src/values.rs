//! Frames and answers as the crate `ringcut` reads and builds them, put into the values of `formats`, which were written apart, so that
//! the two can be held side by side.

use formats::answer::{Answer, Fault, Listed, ListedPart};
use formats::building::{Building, Built};
use formats::frame::{Frame, MULTIPOLYGON, SHORTEST};
use formats::reason::Reason;
use formats::Refusal;
use ringcut::{AnswerError, Coordinate, Flags, FrameAnswer, FrameBuilder, Kind, PartAnswer, Rings, Vertex};

use crate::calls::named;

pub mod answers;
pub mod building;
pub mod frames;

/// What the program prints for a line, read: an answer or a refusal.
pub type Printed = Result<Answer, Refusal>;

pub type ReadFrame = fn(&[u8]) -> Result<Frame, Refusal>;
pub type BuildFrame = fn(&Building) -> Built;
pub type ReadAnswer = fn(&[u8]) -> Result<Answer, Fault>;
pub type ReadPrinted = fn(&[u8]) -> Result<Printed, Fault>;

/// What is held to `formats`: the crate's own functions, or mistaken ones in the place of some.
#[derive(Clone, Copy)]
pub struct Values {
    pub read_frame: ReadFrame,
    pub build_frame: BuildFrame,
    pub read_answer: ReadAnswer,
    pub read_printed: ReadPrinted,
    /// Takes a frame and how many bytes are lent for its answer.
    pub answer_frame: fn(&[u8], usize) -> Result<Answer, Refusal>,
}

impl Values {
    pub const OF_CRATE: Values = Values { read_frame, build_frame, read_answer, read_printed, answer_frame };
}

fn read_frame(bytes: &[u8]) -> Result<Frame, Refusal> {
    let frame = ringcut::Frame::read(bytes).map_err(ringcut::Refusal::number)?;
    let ringcut::Bounds { west, south, east, north } = frame.bounds;
    let ring = |coordinates: Vec<[f64; 2]>| coordinates.into_iter().map(|[x, y]| (x, y)).collect();
    let part = |rings| gone_through(rings).into_iter().map(ring).collect();
    Ok(Frame {
        kind: frame.kind.number(),
        flags: frame.flags.number(),
        bounds: [west, south, east, north],
        buffer: frame.buffer,
        parts: counted(frame.parts()).into_iter().map(part).collect(),
    })
}

/// What a byte that no builder has written holds here.
const UNWRITTEN: u8 = 0xa5;

fn build_frame(building: &Building) -> Built {
    let mut room = vec![UNWRITTEN; building.room];
    let mut refused = Vec::new();
    let frame = build_in(building, &mut room, &mut refused).map(<[u8]>::to_vec).map_err(ringcut::Refusal::number);
    assert!(room.len() >= SHORTEST || room.iter().all(|&byte| byte == UNWRITTEN), "too few bytes stay as they were");
    Built { refused, frame }
}

fn build_in<'a>(
    building: &Building,
    room: &'a mut [u8],
    refused: &mut Vec<Option<Refusal>>,
) -> Result<&'a [u8], ringcut::Refusal> {
    let &Building { kind, flags, ref bounds, buffer, ref parts, .. } = building;
    let kind = if kind == MULTIPOLYGON { Kind::MultiPolygon } else { Kind::Polygon };
    let flags = Flags { assume_simple: flags & 1 != 0, skip_boundary_fallback: flags & 2 != 0 };
    let mut builder = FrameBuilder::new(kind, flags, named(bounds), buffer, room)?;
    for part in parts {
        refused.push(builder.part(part).err().map(ringcut::Refusal::number));
    }
    builder.finish()
}

fn read_answer(bytes: &[u8]) -> Result<Answer, Fault> {
    FrameAnswer::read(bytes).map(answer).map_err(fault)
}

fn read_printed(bytes: &[u8]) -> Result<Printed, Fault> {
    let printed = FrameAnswer::read_printed(bytes).map_err(fault)?;
    Ok(printed.map(answer).map_err(ringcut::Refusal::number))
}

fn answer_frame(frame: &[u8], room: usize) -> Result<Answer, Refusal> {
    ringcut::answer_frame(frame, &mut vec![0; room]).map(answer).map_err(ringcut::Refusal::number)
}

fn answer(answer: FrameAnswer) -> Answer {
    let told = answer.guard_count();
    let (answer, guard_count) = match answer {
        FrameAnswer::Nothing { guard_count } => (Answer::Nothing { guard_count }, guard_count),
        FrameAnswer::Dropped => (Answer::Dropped, 1),
        FrameAnswer::Unchanged => (Answer::Unchanged, 0),
        FrameAnswer::Listed { guard_count, parts } => {
            (Answer::Listed { guard_count, parts: counted(parts).into_iter().map(listed_part).collect() }, guard_count)
        }
    };
    assert_eq!(told, guard_count, "the answer's guard count");
    answer
}

fn listed_part(part: ringcut::ListedPart) -> ListedPart {
    let vertex = |Vertex { x, y, origin }| ((x, y), origin.number());
    let listed = match part.answer {
        PartAnswer::Unchanged => Listed::Unchanged,
        PartAnswer::Cut(rings) => {
            Listed::Cut(gone_through(rings).into_iter().map(|ring| ring.into_iter().map(vertex).collect()).collect())
        }
        PartAnswer::Overlay(reason) => {
            let (first, second) = reason.positions();
            Listed::Overlay(Reason { number: reason.number(), first: first as u32, second: second as u32 })
        }
    };
    ListedPart { index: u16::try_from(part.number).expect("under 256"), listed }
}

fn fault(error: AnswerError) -> Fault {
    match error {
        AnswerError::Truncated => Fault::Truncated,
        AnswerError::Number => Fault::Number,
        AnswerError::GuardCount => Fault::GuardCount,
        AnswerError::ListedCount => Fault::ListedCount,
        AnswerError::PartNumber => Fault::PartNumber,
        AnswerError::PartAnswer => Fault::PartAnswer,
        AnswerError::Reason => Fault::Reason,
        AnswerError::RingCount => Fault::RingCount,
        AnswerError::CoordinateCount => Fault::CoordinateCount,
        AnswerError::Trailing => Fault::Trailing,
    }
}

/// The coordinates of each ring.
fn gone_through<C: Coordinate>(rings: Rings<C>) -> Vec<Vec<C>> {
    let coordinates = |ring: ringcut::Ring<C>| {
        let coordinates = counted(ring.iter());
        assert_eq!((ring.len(), ring.is_empty()), (coordinates.len(), coordinates.is_empty()), "a ring's length");
        coordinates
    };
    counted(rings).into_iter().map(coordinates).collect()
}

/// What is yielded, which has to be as many as are told to be left, before each and at the end.
pub fn counted<I: ExactSizeIterator>(mut items: I) -> Vec<I::Item> {
    let mut yielded = Vec::new();
    for left in (0..items.len()).rev() {
        yielded.push(items.next().expect("one is left"));
        assert_eq!(items.len(), left, "how many are left");
    }
    assert!(items.next().is_none(), "none is left");
    yielded
}
