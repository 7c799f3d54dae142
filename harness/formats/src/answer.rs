//! Answers to frames as bytes, as values and in words.

use std::fmt::{self, Display};

use crate::cursor::Cursor;
use crate::frame::MOST_PARTS;
use crate::origins::{in_words, CutRing};
use crate::reason::Reason;
use crate::Refusal;

#[derive(Debug)]
pub enum Answer {
    Nothing { guard_count: u16 },
    Dropped,
    Unchanged,
    Listed { guard_count: u16, parts: Vec<ListedPart> },
}

#[derive(Debug)]
pub struct ListedPart {
    pub index: u16,
    pub listed: Listed,
}

#[derive(Debug)]
pub enum Listed {
    Unchanged,
    Cut(Vec<CutRing>),
    Overlay(Reason),
}

/// Why bytes are no answer, under the names that the crate `ringcut` documents: the first that is found from the front. The five bytes
/// before the parts are read before one of them is looked at, and so are a part's answer with its reason, and an overlay's positions.
#[derive(Clone, Copy, Debug, PartialEq, Eq)]
pub enum Fault {
    Truncated,
    Number,
    GuardCount,
    ListedCount,
    PartNumber,
    PartAnswer,
    Reason,
    RingCount,
    CoordinateCount,
    Trailing,
}

impl Fault {
    pub const ALL: [Fault; 10] = [
        Fault::Truncated,
        Fault::Number,
        Fault::GuardCount,
        Fault::ListedCount,
        Fault::PartNumber,
        Fault::PartAnswer,
        Fault::Reason,
        Fault::RingCount,
        Fault::CoordinateCount,
        Fault::Trailing,
    ];

    pub fn name(self) -> &'static str {
        match self {
            Fault::Truncated => "truncated",
            Fault::Number => "number",
            Fault::GuardCount => "guard count",
            Fault::ListedCount => "listed count",
            Fault::PartNumber => "part number",
            Fault::PartAnswer => "part answer",
            Fault::Reason => "reason",
            Fault::RingCount => "ring count",
            Fault::CoordinateCount => "coordinate count",
            Fault::Trailing => "trailing",
        }
    }

    /// What a frame would be refused with for such rings is a fault of a cut.
    fn of_rings(refusal: Refusal) -> Fault {
        match refusal {
            16 => Fault::RingCount,
            17 => Fault::CoordinateCount,
            _ => Fault::Truncated,
        }
    }
}

impl Answer {
    pub fn encode(&self) -> Vec<u8> {
        self.encode_with(encode_ring)
    }

    /// The answer as document 01 has it, without origins.
    pub fn encode_without_origins(&self) -> Vec<u8> {
        self.encode_with(encode_coordinates)
    }

    fn encode_with(&self, encode_ring: fn(&CutRing, &mut Vec<u8>)) -> Vec<u8> {
        match self {
            Answer::Nothing { guard_count } => head(0, *guard_count, 0),
            Answer::Dropped => head(1, 1, 0),
            Answer::Unchanged => head(2, 0, 0),
            Answer::Listed { guard_count, parts } => {
                let mut bytes = head(3, *guard_count, parts.len() as u16);
                parts.iter().for_each(|part| part.encode(encode_ring, &mut bytes));
                bytes
            }
        }
    }

    /// Reads an answer.
    pub fn read(bytes: &[u8]) -> Result<Answer, Fault> {
        let mut cursor = Cursor { rest: bytes };
        let [number, head @ ..]: [u8; 5] = cursor.take().map_err(Fault::of_rings)?;
        let [guard_count, listed] = [[head[0], head[1]], [head[2], head[3]]].map(u16::from_le_bytes);
        let has_its_guard_count = match number {
            0 | 3 => usize::from(guard_count) + usize::from(listed) <= MOST_PARTS,
            1 => guard_count == 1,
            2 => guard_count == 0,
            _ => return Err(Fault::Number),
        };
        if !has_its_guard_count {
            return Err(Fault::GuardCount);
        }
        if (number == 3) == (listed == 0) {
            return Err(Fault::ListedCount);
        }
        let mut parts = Vec::new();
        for _ in 0..listed {
            parts.push(ListedPart::read(parts.last(), &mut cursor)?);
        }
        match (number, cursor.rest) {
            (_, [_, ..]) => Err(Fault::Trailing),
            (0, []) => Ok(Answer::Nothing { guard_count }),
            (1, []) => Ok(Answer::Dropped),
            (2, []) => Ok(Answer::Unchanged),
            _ => Ok(Answer::Listed { guard_count, parts }),
        }
    }

    /// Reads what the program prints for a line: an answer, or a refusal that it gives and four zeros.
    pub fn read_printed(bytes: &[u8]) -> Result<Result<Answer, Refusal>, Fault> {
        match *bytes {
            [refusal @ 10..=18, 0, 0, 0, 0] => Ok(Err(refusal)),
            [10..=18, 0, 0, 0, 0, ..] => Err(Fault::Trailing),
            [10..=18, 0, 0, _, _, ..] => Err(Fault::ListedCount),
            [10..=18, _, _, _, _, ..] => Err(Fault::GuardCount),
            _ => Answer::read(bytes).map(Ok),
        }
    }

    /// Reads what the program prints for a line. None where the bytes are neither an answer nor a refusal.
    pub fn decode(bytes: &[u8]) -> Option<Result<Answer, Refusal>> {
        Answer::read_printed(bytes).ok()
    }
}

fn head(answer: u8, guard_count: u16, listed: u16) -> Vec<u8> {
    let mut bytes = vec![answer];
    bytes.extend(guard_count.to_le_bytes());
    bytes.extend(listed.to_le_bytes());
    bytes
}

impl ListedPart {
    fn encode(&self, encode_ring: fn(&CutRing, &mut Vec<u8>), bytes: &mut Vec<u8>) {
        bytes.extend(self.index.to_le_bytes());
        match &self.listed {
            Listed::Unchanged => bytes.extend([2, 0]),
            Listed::Overlay(reason) => {
                bytes.extend([5, reason.number]);
                encode_position(reason.first, bytes);
                encode_position(reason.second, bytes);
            }
            Listed::Cut(rings) => {
                bytes.extend([4, 0]);
                bytes.extend((rings.len() as u16).to_le_bytes());
                rings.iter().for_each(|ring| encode_ring(ring, bytes));
            }
        }
    }

    /// The part that stands behind `before`, or first.
    fn read(before: Option<&ListedPart>, cursor: &mut Cursor) -> Result<ListedPart, Fault> {
        let index = cursor.count().map_err(Fault::of_rings)?;
        if index >= MOST_PARTS || before.is_some_and(|before| index <= usize::from(before.index)) {
            return Err(Fault::PartNumber);
        }
        let listed = match cursor.take().map_err(Fault::of_rings)? {
            [2, 0] => Listed::Unchanged,
            [4, 0] => Listed::Cut(cursor.cut_part().map_err(Fault::of_rings)?),
            [5, number] => Listed::Overlay(decode_reason(number, cursor)?),
            _ => return Err(Fault::PartAnswer),
        };
        Ok(ListedPart { index: index as u16, listed })
    }
}

fn encode_position(position: u32, bytes: &mut Vec<u8>) {
    let position = u16::try_from(position).expect("no ring of a frame is cut to 65,536 coordinates");
    bytes.extend(position.to_le_bytes());
}

/// A reason of that number with the positions that stand behind it.
fn decode_reason(number: u8, cursor: &mut Cursor) -> Result<Reason, Fault> {
    let mut position = || cursor.count().map(|position| position as u32).map_err(Fault::of_rings);
    let reason = Reason { number, first: position()?, second: position()? };
    reason.is_possible().then_some(reason).ok_or(Fault::Reason)
}

fn encode_ring(cut: &CutRing, bytes: &mut Vec<u8>) {
    bytes.extend((cut.ring.len() as u16).to_le_bytes());
    for ((x, y), origin) in cut.vertices() {
        bytes.extend(written(x));
        bytes.extend(written(y));
        bytes.extend(origin.to_le_bytes());
    }
}

fn encode_coordinates(cut: &CutRing, bytes: &mut Vec<u8>) {
    bytes.extend((cut.ring.len() as u16).to_le_bytes());
    bytes.extend(cut.ring.iter().flat_map(|&(x, y)| [written(x), written(y)].concat()));
}

fn written(number: f64) -> [u8; 8] {
    let bits = if number.is_nan() { 0x7ff8_0000_0000_0000 } else { number.to_bits() };
    bits.to_le_bytes()
}

impl Display for Answer {
    fn fmt(&self, f: &mut fmt::Formatter) -> fmt::Result {
        let (words, guard_count) = match self {
            Answer::Nothing { guard_count } => ("nothing".to_string(), *guard_count),
            Answer::Dropped => ("dropped".to_string(), 1),
            Answer::Unchanged => ("unchanged".to_string(), 0),
            Answer::Listed { guard_count, parts } => {
                (parts.iter().map(ListedPart::to_string).collect::<Vec<_>>().join("; "), *guard_count)
            }
        };
        write!(f, "{words}")?;
        if guard_count > 0 {
            write!(f, "; guard count {guard_count}")?;
        }
        Ok(())
    }
}

impl Display for ListedPart {
    fn fmt(&self, f: &mut fmt::Formatter) -> fmt::Result {
        write!(f, "part {} ", self.index)?;
        match &self.listed {
            Listed::Unchanged => write!(f, "unchanged"),
            Listed::Overlay(reason) => write!(f, "overlay, {reason}"),
            Listed::Cut(rings) => {
                let vertex = |((x, y), origin)| format!("({x},{y}) {}", in_words(origin));
                let shown = |cut: &CutRing| cut.vertices().map(vertex).collect::<Vec<_>>().join(", ");
                write!(f, "cut {}", rings.iter().map(shown).collect::<Vec<_>>().join("; hole "))
            }
        }
    }
}

#[cfg(test)]
mod tests {
    use super::*;

    #[test]
    fn an_answer_is_read_as_it_was_written() {
        let ring = vec![(0.5, 1.0), (2.0, -3.0), (4.0, 5.0), (0.5, 1.0)];
        let exterior = CutRing { ring: ring.clone(), origins: vec![0, 258, 65_535, 0] };
        let hole = CutRing { ring, origins: vec![65_532, 65_533, 65_534, 65_532] };
        let parts = vec![
            ListedPart { index: 0, listed: Listed::Unchanged },
            ListedPart { index: 2, listed: Listed::Cut(vec![exterior, hole]) },
            ListedPart { index: 3, listed: Listed::Overlay(Reason::without_positions(6)) },
            ListedPart { index: 4, listed: Listed::Overlay(Reason { number: 7, first: 315, second: 0 }) },
            ListedPart { index: 255, listed: Listed::Overlay(Reason { number: 10, first: 258, second: 1_609 }) },
        ];
        let words = "part 0 unchanged; \
                     part 2 cut (0.5,1) corner 0, (2,-3) corner 258, (4,5) Top, (0.5,1) corner 0; \
                     hole (0.5,1) Left, (2,-3) Right, (4,5) Bottom, (0.5,1) Left; \
                     part 3 overlay, reason 6; part 4 overlay, reason 7: corner 315 is repeated; \
                     part 255 overlay, reason 10: edges 258 and 1609 of the cut cross; guard count 251";
        for (answer, words) in [
            (Answer::Nothing { guard_count: 0 }, "nothing"),
            (Answer::Nothing { guard_count: 2 }, "nothing; guard count 2"),
            (Answer::Dropped, "dropped; guard count 1"),
            (Answer::Unchanged, "unchanged"),
            (Answer::Listed { guard_count: 251, parts }, words),
            (Answer::Nothing { guard_count: 256 }, "nothing; guard count 256"),
        ] {
            let bytes = answer.encode();
            let read = Answer::decode(&bytes).expect("these are an answer's bytes").expect("no refusal's");
            assert_eq!(read.to_string(), words);
            assert_eq!(read.encode(), bytes);
            assert!(Answer::decode(&bytes[..bytes.len() - 1]).is_none());
            assert!(Answer::decode(&[&bytes[..], &[0]].concat()).is_none());
        }
    }

    /// A coordinate of a cut has 18 bytes: x, y, origin. Without origins it has the 16 of a frame that is lent.
    #[test]
    fn a_coordinate_is_followed_by_its_origin() {
        let ring = vec![(0.5, f64::NAN), (2.0, -0.0), (0.5, 0.5), (2.0, 2.0)];
        let cut = CutRing { ring, origins: vec![258, 65_534, 0, 1] };
        let parts = vec![ListedPart { index: 1, listed: Listed::Cut(vec![cut]) }];
        let answer = Answer::Listed { guard_count: 0, parts };
        let head = [3, 0, 0, 1, 0, 1, 0, 4, 0, 1, 0, 4, 0];
        let [half, nan, two, minus_zero] = [0x3fe0, 0x7ff8, 0x4000, 0x8000_u64].map(|high| (high << 48).to_le_bytes());
        let coordinates = [[half, nan], [two, minus_zero], [half, half], [two, two]].map(|both| both.concat());
        let origins = [[2, 1], [0xfe, 0xff], [0, 0], [1, 0]];
        let with_origins = coordinates.iter().zip(origins).map(|(both, origin)| [both, &origin[..]].concat());
        let bytes = [head.to_vec(), with_origins.flatten().collect()].concat();
        assert_eq!(answer.encode(), bytes);
        assert_eq!(answer.encode_without_origins(), [head.to_vec(), coordinates.concat()].concat());
        assert_eq!(Answer::decode(&bytes).unwrap().unwrap().encode(), bytes);
        assert!(Answer::decode(&answer.encode_without_origins()).is_none());
    }

    /// An overlay part has eight bytes: number, 5, reason, first and second position.
    #[test]
    fn an_overlay_part_ends_with_two_positions() {
        let listed = Listed::Overlay(Reason { number: 8, first: 2, second: 260 });
        let answer = Answer::Listed { guard_count: 0, parts: vec![ListedPart { index: 1, listed }] };
        assert_eq!(answer.encode(), [3, 0, 0, 1, 0, 1, 0, 5, 8, 2, 0, 4, 1]);
        let is_answer = |part: [u8; 6]| Answer::decode(&[&[3, 0, 0, 1, 0, 1, 0], &part[..]].concat()).is_some();
        assert!(is_answer([5, 10, 0, 0, 2, 0]));
        for part in
            [[5, 0, 0, 0, 0, 0], [5, 11, 0, 0, 0, 0], [5, 4, 1, 0, 0, 0], [5, 9, 1, 0, 2, 0], [5, 8, 2, 0, 2, 0]]
        {
            assert!(!is_answer(part), "{part:?}");
        }
    }

    /// Of each fault the answers that have it in the fewest bytes, or in other ways; a list is of one part where nothing else is said.
    #[test]
    fn the_first_fault_is_told() {
        let listing = |part: &[u8]| [&[3, 0, 0, 1, 0], part].concat();
        let cut = |rings: &[u8]| listing(&[&[0, 0, 4, 0], rings].concat());
        for (fault, faulty) in [
            (
                Fault::Truncated,
                vec![vec![], vec![9, 9, 9, 9], listing(&[0]), listing(&[0, 0, 9]), listing(&[0, 0, 5, 9])],
            ),
            (Fault::Truncated, vec![listing(&[0, 0, 5, 9, 9, 9, 9]), cut(&[0]), cut(&[1, 0, 1]), cut(&[1, 0, 0, 16])]),
            (Fault::Number, vec![vec![4, 9, 9, 9, 9], vec![10, 0, 0, 0, 0], vec![255, 0, 0, 0, 0]]),
            (
                Fault::GuardCount,
                vec![vec![0, 1, 1, 9, 9], vec![1, 0, 0, 9, 9], vec![1, 1, 1, 9, 9], vec![2, 1, 0, 9, 9]],
            ),
            (Fault::GuardCount, vec![vec![3, 1, 1, 0, 0], vec![3, 0, 1, 1, 0], vec![3, 0, 0, 1, 1]]),
            (
                Fault::ListedCount,
                vec![vec![0, 0, 0, 1, 0], vec![1, 1, 0, 0, 1], vec![2, 0, 0, 1, 0], vec![3, 0, 1, 0, 0]],
            ),
            (
                Fault::PartNumber,
                vec![listing(&[0, 1]), vec![3, 0, 0, 2, 0, 7, 0, 2, 0, 7, 0], vec![3, 0, 0, 2, 0, 7, 0, 2, 0, 6, 0]],
            ),
            (
                Fault::PartAnswer,
                vec![listing(&[0, 0, 0, 0]), listing(&[0, 0, 3, 0]), listing(&[0, 0, 2, 1]), listing(&[0, 0, 4, 1])],
            ),
            (Fault::Reason, vec![listing(&[0, 0, 5, 0, 0, 0, 0, 0]), listing(&[0, 0, 5, 11, 0, 0, 0, 0])]),
            (Fault::Reason, vec![listing(&[0, 0, 5, 6, 1, 0, 0, 0]), listing(&[0, 0, 5, 8, 0, 1, 1, 0])]),
            (Fault::RingCount, vec![cut(&[0, 0]), cut(&[65, 0]), cut(&[1, 1])]),
            (Fault::CoordinateCount, vec![cut(&[1, 0, 0, 0]), cut(&[1, 0, 3, 0]), cut(&[1, 0, 1, 16])]),
            (Fault::Trailing, vec![vec![2, 0, 0, 0, 0, 0], listing(&[0, 0, 2, 0, 0])]),
        ] {
            for bytes in faulty {
                assert_eq!(Answer::read(&bytes).err(), Some(fault), "{bytes:?}");
            }
        }
    }

    #[test]
    fn a_printed_refusal_has_faults_too() {
        for (bytes, fault) in [
            (&[11][..], Fault::Truncated),
            (&[11, 1, 0, 1, 0, 0], Fault::GuardCount),
            (&[11, 0, 0, 0, 1, 0], Fault::ListedCount),
            (&[11, 0, 0, 0, 0, 0], Fault::Trailing),
            (&[19, 0, 0, 0, 0], Fault::Number),
            (&[2, 1, 0, 0, 0], Fault::GuardCount),
        ] {
            assert_eq!(Answer::read_printed(bytes).err(), Some(fault), "{bytes:?}");
        }
    }

    #[test]
    fn a_refusal_is_its_number_and_four_zeros() {
        assert!(matches!(Answer::decode(&[11, 0, 0, 0, 0]), Some(Err(11))));
        for [answer, guard_count] in [[9, 0], [19, 0], [22, 0], [23, 0], [11, 1], [1, 0], [2, 1], [3, 0]] {
            assert!(Answer::decode(&[answer, guard_count, 0, 0, 0]).is_none(), "{answer} {guard_count}");
        }
    }
}
