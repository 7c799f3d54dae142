//! Frames as bytes and as values, with the refusals 11 to 18 of the way in.

use crate::cursor::Cursor;
use crate::room::most_cut;
use crate::{closed_length, Bounds, Part, Refusal};

pub const POLYGON: u8 = 3;
pub const MULTIPOLYGON: u8 = 6;

pub const SHORTEST: usize = 44;
pub const LONGEST: usize = 5_120;
pub const MOST_PARTS: usize = 256;
pub const MOST_RINGS: usize = 64;
pub const MOST_COORDINATES: usize = 4_096;

/// The output bytes that a frame of no parts asks for: an answer with nothing listed.
pub const LEAST_ROOM: usize = 5;

/// The bytes of a coordinate in an answer: x, y and its origin. In a frame that is lent it has no origin.
pub const ANSWERED_COORDINATE: usize = 18;

#[derive(Clone, Debug)]
pub struct Frame {
    pub kind: u8,
    pub flags: u8,
    pub bounds: Bounds,
    pub buffer: f64,
    pub parts: Vec<Part>,
}

impl Frame {
    pub fn encode(&self) -> Vec<u8> {
        let mut bytes = vec![self.kind, self.flags];
        for number in self.bounds.iter().chain([&self.buffer]) {
            bytes.extend(number.to_le_bytes());
        }
        put_count(&mut bytes, self.parts.len());
        for part in &self.parts {
            put_count(&mut bytes, part.len());
            for ring in part {
                put_count(&mut bytes, ring.len());
                for &(x, y) in ring {
                    bytes.extend(x.to_le_bytes());
                    bytes.extend(y.to_le_bytes());
                }
            }
        }
        bytes
    }

    pub fn decode(bytes: &[u8]) -> Result<Frame, Refusal> {
        if !(SHORTEST..=LONGEST).contains(&bytes.len()) {
            return Err(11);
        }
        let (kind, flags) = (bytes[0], bytes[1]);
        if kind != POLYGON && kind != MULTIPOLYGON {
            return Err(12);
        }
        if flags > 3 {
            return Err(13);
        }
        let mut cursor = Cursor { rest: &bytes[2..] };
        let mut number = || cursor.number();
        let bounds = [number()?, number()?, number()?, number()?];
        let buffer = number()?;
        let part_count = cursor.count()?;
        if part_count > MOST_PARTS || (kind == POLYGON && part_count != 1) {
            return Err(14);
        }
        let parts = (0..part_count).map(|_| cursor.part()).collect::<Result<_, _>>()?;
        if !cursor.rest.is_empty() {
            return Err(18);
        }
        Ok(Frame { kind, flags, bounds, buffer, parts })
    }

    /// The output bytes that 22 asks for, whatever the answer will be.
    pub fn room(&self) -> usize {
        let part = |rings: &Part| {
            let most: usize = rings.iter().map(|ring| most_cut(closed_length(ring))).sum();
            6 + 2 * rings.len() + ANSWERED_COORDINATE * most
        };
        LEAST_ROOM + self.parts.iter().map(part).sum::<usize>()
    }
}

fn put_count(bytes: &mut Vec<u8>, count: usize) {
    bytes.extend((count as u16).to_le_bytes());
}

#[cfg(test)]
mod tests {
    use super::{Frame, MULTIPOLYGON};

    fn room(parts: Vec<Vec<Vec<(f64, f64)>>>) -> usize {
        Frame { kind: MULTIPOLYGON, flags: 0, bounds: [0.0; 4], buffer: 0.0, parts }.room()
    }

    /// B(5) is 24, and B(2) 11.
    #[test]
    fn room_is_18_bytes_a_coordinate() {
        assert_eq!(room(vec![]), 5);
        assert_eq!(room(vec![vec![vec![(2.0, 2.0); 5]]]), 5 + 8 + 18 * 24);
        assert_eq!(room(vec![vec![vec![(f64::NAN, 2.0)], vec![]]]), 5 + 10 + 18 * 11);
    }

    /// Rings of one NaN coordinate, which closing makes two: 281 in nine parts fill a frame of 5,120 bytes.
    #[test]
    fn no_frame_asks_for_more_than_56_259_bytes() {
        let part = |rings: usize| vec![vec![(f64::NAN, 0.0)]; rings];
        let parts: Vec<_> = [vec![part(32); 8], vec![part(25)]].concat();
        let frame = Frame { kind: MULTIPOLYGON, flags: 0, bounds: [0.0; 4], buffer: 0.0, parts };
        assert!(Frame::decode(&frame.encode()).is_ok());
        assert_eq!(frame.room(), 56_259);
    }
}
