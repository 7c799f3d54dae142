//! Frames built part by part in lent bytes, and what comes of it, as the crate `ringcut` documents its `FrameBuilder`.

use std::fmt::{self, Display};

use crate::frame::{Frame, LONGEST, MOST_COORDINATES, MOST_PARTS, MOST_RINGS, POLYGON, SHORTEST};
use crate::{flat, pairs, Bounds, Part, Refusal};

/// Parts that are put into a frame one by one. A ring is x, y numbers, of which there may be too many or an odd count.
#[derive(Clone, Debug)]
pub struct Building {
    pub kind: u8,
    pub flags: u8,
    pub bounds: Bounds,
    pub buffer: f64,
    pub parts: Vec<Vec<Vec<f64>>>,
    /// How many bytes are lent.
    pub room: usize,
}

/// What comes of it. Where the frame can't be begun no part is tried.
#[derive(Clone, Debug, PartialEq, Eq)]
pub struct Built {
    /// Why each part is refused; none where it is taken.
    pub refused: Vec<Option<Refusal>>,
    /// The bytes, or why the frame can't be begun or finished.
    pub frame: Result<Vec<u8>, Refusal>,
}

/// What a builder goes by.
#[derive(Clone, Copy, Debug)]
pub struct Limits {
    /// The bytes of the longest frame.
    pub size: usize,
    pub parts: usize,
    pub rings: usize,
    pub coordinates: usize,
}

impl Limits {
    pub const RIGHT: Limits =
        Limits { size: LONGEST, parts: MOST_PARTS, rings: MOST_RINGS, coordinates: MOST_COORDINATES };
}

impl Building {
    /// The parts of a frame, to be put together again.
    pub fn of(Frame { kind, flags, bounds, buffer, parts }: &Frame, room: usize) -> Building {
        let numbers = |part: &Part| part.iter().map(|ring| flat(ring)).collect();
        let (kind, flags, bounds, buffer) = (*kind, *flags, *bounds, *buffer);
        Building { kind, flags, bounds, buffer, parts: parts.iter().map(numbers).collect(), room }
    }

    /// What comes of it by these limits.
    pub fn built(&self, limits: Limits) -> Built {
        if self.room < SHORTEST {
            return Built { refused: Vec::new(), frame: Err(22) };
        }
        let Building { kind, flags, bounds, buffer, .. } = *self;
        let mut frame = Frame { kind, flags, bounds, buffer, parts: Vec::new() };
        let (mut refused, mut len) = (Vec::new(), SHORTEST);
        for part in &self.parts {
            let refusal = self.refusal(limits, frame.parts.len(), len, part);
            if refusal.is_none() {
                len += part_size(part);
                frame.parts.push(part.iter().map(|ring| pairs(ring)).collect());
            }
            refused.push(refusal);
        }
        let is_unfinished = kind == POLYGON && frame.parts.is_empty();
        Built { refused, frame: if is_unfinished { Err(14) } else { Ok(frame.encode()) } }
    }

    /// Why a part is refused behind so many parts and bytes: what comes first as its counts and numbers are written in their order. How
    /// many rings there are shows as they are gone through; a ring's own count is looked at before it is written.
    fn refusal(&self, limits: Limits, parts: usize, len: usize, part: &[Vec<f64>]) -> Option<Refusal> {
        if parts == if self.kind == POLYGON { 1 } else { limits.parts } {
            return Some(14);
        }
        let refused_ring = |(before, ring): (usize, &Vec<f64>)| {
            if before == limits.rings {
                Some(16)
            } else if ring.len() % 2 == 1 {
                Some(19)
            } else if ring.len() / 2 > limits.coordinates {
                Some(17)
            } else {
                self.lack_of_room(limits, len + part_size(&part[..before]), ring.len())
            }
        };
        self.lack_of_room(limits, len, 0)
            .or_else(|| part.iter().enumerate().find_map(refused_ring))
            .or_else(|| part.is_empty().then_some(16))
    }

    /// Why a count and so many numbers can't stand behind so many bytes: the first of them that ends too far back ends over the size
    /// of a frame, or else over what is lent.
    fn lack_of_room(&self, limits: Limits, len: usize, numbers: usize) -> Option<Refusal> {
        let room = self.room.min(limits.size);
        let ends_too_far = (0..=numbers).map(|number| len + 2 + 8 * number).find(|&end| end > room)?;
        Some(if ends_too_far > limits.size { 11 } else { 22 })
    }
}

/// The bytes of a part.
fn part_size(part: &[Vec<f64>]) -> usize {
    2 + part.iter().map(|ring| 2 + 8 * ring.len()).sum::<usize>()
}

impl Display for Building {
    fn fmt(&self, f: &mut fmt::Formatter) -> fmt::Result {
        let Building { kind, flags, bounds, buffer, parts, room } = self;
        let rings = |part: &Vec<Vec<f64>>| part.iter().map(Vec::len).collect::<Vec<_>>();
        let shown: Vec<_> = parts.iter().map(rings).collect();
        write!(
            f,
            "kind {kind}, flags {flags}, bounds {bounds:?}, buffer {buffer:?}, room {room}, numbers by ring {shown:?}"
        )
    }
}

#[cfg(test)]
mod tests {
    use super::*;
    use crate::frame::MULTIPOLYGON;

    fn built(kind: u8, room: usize, parts: &[Vec<Vec<f64>>]) -> Built {
        let building = Building { kind, flags: 0, bounds: [0.0; 4], buffer: 0.0, parts: parts.to_vec(), room };
        building.built(Limits::RIGHT)
    }

    fn ring(numbers: usize) -> Vec<Vec<f64>> {
        vec![vec![0.5; numbers]]
    }

    #[test]
    fn a_frame_needs_room_for_its_head() {
        assert_eq!(built(POLYGON, 43, &[ring(2)]), Built { refused: vec![], frame: Err(22) });
        assert_eq!(built(POLYGON, 44, &[ring(2)]), Built { refused: vec![Some(22)], frame: Err(14) });
        assert_eq!(built(MULTIPOLYGON, 44, &[]).frame.map(|frame| frame.len()), Ok(44));
    }

    #[test]
    fn a_refused_part_is_not_there() {
        let parts = [ring(2), ring(3), ring(8_194), vec![], vec![vec![]; 65], ring(632), ring(4)];
        let Built { refused, frame } = built(MULTIPOLYGON, 6_000, &parts);
        assert_eq!(refused, [None, Some(19), Some(17), Some(16), Some(16), Some(11), None]);
        let frame = Frame::decode(&frame.unwrap()).unwrap();
        assert_eq!(frame.parts.iter().map(|part| part[0].len()).collect::<Vec<_>>(), [1, 2]);
    }

    #[test]
    fn what_is_written_first_is_refused_first() {
        let first = |room: usize, part: &[Vec<f64>]| built(MULTIPOLYGON, room, &[part.to_vec()]).refused[0];
        assert_eq!(first(45, &[]), Some(22));
        assert_eq!(first(46, &[]), Some(16));
        assert_eq!(first(46, &[vec![0.5]]), Some(19));
        assert_eq!(first(5_120, &ring(8_192)), Some(11));
        assert_eq!(first(5_119, &ring(8_192)), Some(22));
        assert_eq!(first(5_119, &[&ring(630)[..], &[const { Vec::new() }; 4], &ring(4)].concat()), Some(11));
        assert_eq!(first(5_120, &[&ring(2)[..], &vec![vec![]; 63], &ring(3)].concat()), Some(16));
        assert_eq!(built(POLYGON, 5_120, &[ring(2), ring(3)]).refused, [None, Some(14)]);
    }
}
