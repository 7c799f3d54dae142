//! Section "Frames": the walk over a frame's bytes, the room, and the answer's bytes.

use crate::multipolygon::Whole;
use crate::origins::Made;
use crate::polygon::{Bounds, Flags, Routed};
use crate::reason::Reason;
use crate::ring::b;
use crate::{Mistake, Reading, Vertex};

const HEADER: usize = 44;

/// The output bytes that a frame of no parts asks for.
const LEAST_ROOM: usize = 5;

struct Decoded {
    is_multipolygon: bool,
    flags: Flags,
    bounds: Bounds,
    /// As lent, not closed.
    parts: Vec<Vec<Vec<Vertex>>>,
}

impl Reading {
    /// The frame call's answer with `room` bytes of output, or the number of the refusal.
    pub fn answer(&self, frame: &[u8], room: usize) -> Result<Vec<u8>, u8> {
        if room < LEAST_ROOM && self.makes(Mistake::RoomBeforeFrame) {
            return Err(22);
        }
        let decoded = self.decode(frame)?;
        if !self.makes(Mistake::RoomByAnswer) && room < self.room(&decoded.parts) {
            return Err(22);
        }
        let parts: Vec<_> = decoded.parts.iter().map(|rings| self.closed(rings)).collect();
        let whole = if decoded.is_multipolygon {
            self.multipolygon(&parts, &decoded.bounds, decoded.flags)
        } else {
            match self.polygon(&parts[0], &decoded.bounds, decoded.flags) {
                Routed::Nothing => Whole::Nothing { guards: 0 },
                Routed::Dropped => Whole::Dropped,
                Routed::Unchanged => Whole::Unchanged,
                listed => Whole::Listed { guards: 0, parts: vec![(0, listed)] },
            }
        };
        let bytes = self.bytes(&whole);
        if bytes.len() > room {
            return Err(22);
        }
        Ok(bytes)
    }

    fn decode(&self, frame: &[u8]) -> Result<Decoded, u8> {
        if frame.len() < HEADER || frame.len() > 5_120 {
            return Err(11);
        }
        let is_multipolygon = match frame[0] {
            3 => false,
            6 => true,
            _ => return Err(12),
        };
        let flags = frame[1];
        if flags > 3 {
            return Err(13);
        }
        let part_count = count_at(frame, 42).ok_or(15)?;
        let refused = part_count > 256
            || (!is_multipolygon && part_count != 1)
            || (part_count == 0 && self.makes(Mistake::RefusesNoParts));
        if refused && !self.makes(Mistake::PartCountAfterWalk) {
            return Err(14);
        }
        let parts = self.walk(frame, part_count)?;
        if refused {
            return Err(14);
        }
        Ok(Decoded {
            is_multipolygon,
            flags: Flags { assume_simple: flags % 2 == 1, skip_boundary_fallback: flags >= 2 },
            bounds: Bounds::new([2, 10, 18, 26].map(|at| number_at(frame, at)), number_at(frame, 34)),
            parts,
        })
    }

    /// The parts from byte 44 on: 15, 16 and 17 as they are met, 18 at the end.
    fn walk(&self, frame: &[u8], part_count: usize) -> Result<Vec<Vec<Vec<Vertex>>>, u8> {
        let mut at = HEADER;
        let mut parts = Vec::new();
        for _ in 0..part_count {
            let half_count = if self.makes(Mistake::HalfRingCountIs16) { 16 } else { 15 };
            let ring_count = count_at(frame, at).ok_or(half_count)?;
            at += 2;
            if ring_count == 0 || ring_count > 64 {
                return Err(16);
            }
            let mut rings = Vec::new();
            for _ in 0..ring_count {
                let coordinates = count_at(frame, at).ok_or(15)?;
                at += 2;
                let size = if self.makes(Mistake::LentCoordinatesOf18) { 18 } else { 16 };
                let end = at + size * coordinates;
                if end > frame.len() && self.makes(Mistake::MissingCoordinatesFirst) {
                    return Err(15);
                }
                if coordinates > 4_096 {
                    return Err(17);
                }
                if end > frame.len() {
                    return Err(15);
                }
                rings.push((at..end).step_by(size).map(|at| vertex_at(frame, at)).collect());
                at = end;
            }
            parts.push(rings);
        }
        if at < frame.len() {
            return Err(18);
        }
        Ok(parts)
    }

    /// The output bytes that a frame of these parts asks for.
    fn room(&self, parts: &[Vec<Vec<Vertex>>]) -> usize {
        let part = |rings: &Vec<Vec<Vertex>>| {
            let sum: usize = rings.iter().map(|ring| b(self.length_for_room(ring))).sum();
            let counted = if self.makes(Mistake::RoomForLessThan64Rings) { rings.len().min(63) } else { rings.len() };
            let size = if self.makes(Mistake::RoomOf16) { 16 } else { 18 };
            6 + 2 * counted + size * sum
        };
        LEAST_ROOM + parts.iter().map(part).sum::<usize>()
    }

    fn bytes(&self, whole: &Whole) -> Vec<u8> {
        let (answer, guards, listed): (u8, u16, &[(u16, Routed)]) = match whole {
            Whole::Nothing { guards } => (0, *guards, &[]),
            Whole::Dropped => (1, 1, &[]),
            Whole::Unchanged => (2, 0, &[]),
            Whole::Listed { guards, parts } => (3, *guards, parts),
        };
        let mut bytes = vec![answer];
        bytes.extend(guards.to_le_bytes());
        bytes.extend((listed.len() as u16).to_le_bytes());
        for (number, routed) in listed {
            bytes.extend(number.to_le_bytes());
            self.put_part(&mut bytes, routed);
        }
        bytes
    }

    fn put_part(&self, bytes: &mut Vec<u8>, routed: &Routed) {
        match routed {
            Routed::Unchanged => bytes.extend([2, 0]),
            Routed::Overlay(Reason { number, first, second }) => {
                bytes.extend([5, *number]);
                self.put_positions(bytes, *first, *second);
            }
            Routed::Cut(rings) => {
                bytes.extend([4, 0]);
                bytes.extend((rings.len() as u16).to_le_bytes());
                for ring in rings {
                    bytes.extend((ring.len() as u16).to_le_bytes());
                    self.put_vertices(bytes, ring);
                }
                if self.makes(Mistake::PositionsOnCutParts) {
                    self.put_positions(bytes, 0, 0);
                }
            }
            Routed::Nothing | Routed::Dropped => unreachable!("only what is kept is listed"),
        }
    }

    /// Each coordinate is followed by its origin, 2 bytes.
    fn put_vertices(&self, bytes: &mut Vec<u8>, ring: &[Made]) {
        let stand_behind = self.makes(Mistake::OriginsBehindRing);
        for Made { vertex, origin } in ring {
            self.put_number(bytes, vertex.x);
            self.put_number(bytes, vertex.y);
            if !stand_behind {
                self.put_origin(bytes, *origin);
            }
        }
        if stand_behind {
            ring.iter().for_each(|made| self.put_origin(bytes, made.origin));
        }
    }

    fn put_origin(&self, bytes: &mut Vec<u8>, origin: u16) {
        let big_endian = self.makes(Mistake::OriginsBigEndian);
        bytes.extend(if big_endian { origin.to_be_bytes() } else { origin.to_le_bytes() });
    }

    /// An overlay part ends with two positions of 2 bytes each.
    fn put_positions(&self, bytes: &mut Vec<u8>, first: usize, second: usize) {
        for position in [first as u16, second as u16] {
            let big_endian = self.makes(Mistake::PositionsBigEndian);
            bytes.extend(if big_endian { position.to_be_bytes() } else { position.to_le_bytes() });
        }
    }

    fn put_number(&self, bytes: &mut Vec<u8>, number: f64) {
        if number.is_nan() {
            let sign_and_exponent = if self.makes(Mistake::WritesNegativeNan) { 0xff } else { 0x7f };
            bytes.extend([0, 0, 0, 0, 0, 0, 0xf8, sign_and_exponent]);
        } else {
            bytes.extend(number.to_le_bytes());
        }
    }
}

fn count_at(frame: &[u8], at: usize) -> Option<usize> {
    let bytes = frame.get(at..at + 2)?;
    Some(usize::from(bytes[0]) + 256 * usize::from(bytes[1]))
}

/// The eight bytes are known to be there.
fn number_at(frame: &[u8], at: usize) -> f64 {
    let bits = frame[at..at + 8].iter().rev().fold(0, |bits, &byte| bits << 8 | u64::from(byte));
    f64::from_bits(bits)
}

fn vertex_at(frame: &[u8], at: usize) -> Vertex {
    Vertex { x: number_at(frame, at), y: number_at(frame, at + 8) }
}
