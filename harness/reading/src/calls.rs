//! Ring calls, slice calls and single passes: their answers, and what they leave in the slices lent to them. One scratch slice
//! is lent, and a success leaves zeros in the output past the answer: document 02, point 4. A scratch slice and an output of u16 are
//! lent besides for origins: point 12.

use std::iter;

use crate::cut::{Passed, Side};
use crate::origins::{origins_of, Closing, Made};
use crate::polygon::{Bounds, Box4, Flags, Routed};
use crate::reason::Reason;
use crate::ring::{b, half_growth, vertices};
use crate::{Mistake, Reading, Vertex};

const MOST_RINGS: usize = 64;

/// Of all rings of a call together, and what that was before origins.
const MOST_COORDINATES: usize = 65_532;
const MOST_BEFORE_ORIGINS: usize = 65_536;

/// The slices lent to a call; a ring call has no order slice and no second length slice.
#[derive(Clone, Debug, Default)]
pub struct Lent {
    pub scratch: Vec<f64>,
    pub origin_scratch: Vec<u16>,
    pub order: Vec<u32>,
    pub out: Vec<f64>,
    pub out_lengths: Vec<u32>,
    pub out_origins: Vec<u16>,
}

/// One pass as it is asked for: the whole pairs of these numbers, and an origin for each.
pub struct PassInput<'a> {
    pub ring: &'a [f64],
    pub origins: &'a [u16],
    pub side: Side,
    pub bounds: [f64; 4],
}

/// One polygon as a slice call takes it.
pub struct Slices<'a> {
    pub flags: Flags,
    pub bounds: [f64; 4],
    pub buffer: f64,
    pub coords: &'a [f64],
    pub lengths: &'a [u32],
}

/// The room that a call asks for, in coordinates.
#[derive(Clone, Copy)]
struct Room {
    /// S: what the scratch slices have to hold, and the order slice.
    largest: usize,
    /// The sum of the B: what the output has to hold, and how far it is written.
    sum: usize,
}

/// What an answer writes: numbers from the front of the output, origins from the front of theirs, lengths from the front of the
/// second length slice.
#[derive(Default)]
struct Written {
    numbers: Vec<f64>,
    origins: Vec<u16>,
    lengths: Vec<u32>,
}

/// How many vertices a pass wrote, and how many verdicts it worked out.
pub struct PassCounts {
    pub vertices: usize,
    pub verdicts: usize,
}

impl Reading {
    /// One pass, its vertices and their origins written from the front of the outputs. None where one of these is shorter than the
    /// half-growth asks, or a vertex lacks its origin: then nothing is written.
    pub fn pass_call(&self, input: &PassInput, out: &mut [f64], out_origins: &mut [u16]) -> Option<PassCounts> {
        let coordinates = input.ring.len() / 2;
        let most = half_growth(coordinates);
        if out.len() < 2 * most || out_origins.len() < most || input.origins.len() < coordinates {
            return None;
        }
        let vertices = vertices(&input.ring[..2 * coordinates]);
        let ring: Vec<Made> =
            vertices.iter().zip(input.origins).map(|(&vertex, &origin)| Made { vertex, origin }).collect();
        let Passed { vertices, verdicts } = self.pass(&ring, input.side, &Box4::from_numbers(input.bounds), true);
        for (place, made) in out.chunks_mut(2).zip(&vertices) {
            place.copy_from_slice(&[made.vertex.x, made.vertex.y]);
        }
        out_origins[..vertices.len()].copy_from_slice(&origins_of(&vertices));
        Some(PassCounts { vertices: vertices.len(), verdicts })
    }

    /// The count of coordinates that a ring call writes, or minus the number of its refusal.
    pub fn ring_call(&self, ring: &[f64], bounds: [f64; 4], lent: &mut Lent) -> i64 {
        self.begin(lent);
        match self.ring_answer(ring, bounds, lent) {
            Err(refusal) => -i64::from(refusal),
            Ok((cut, room)) => {
                let written = Written { numbers: numbers_of(&cut), origins: origins_of(&cut), lengths: Vec::new() };
                self.leave(lent, room, &written);
                cut.len() as i64
            }
        }
    }

    /// The cut ring, and B of the ring as it is lent.
    fn ring_answer(&self, ring: &[f64], bounds: [f64; 4], lent: &Lent) -> Result<(Vec<Made>, Room), u8> {
        if ring.len() % 2 == 1 {
            return Err(19);
        }
        let ring = vertices(ring);
        if self.too_many(ring.len()) {
            return Err(20);
        }
        let most = b(self.length_in_ring_call(&ring));
        let room = Room { largest: most, sum: most };
        let short = lent.scratch.len() < 2 * most && !self.makes(Mistake::ScratchUnseen);
        if short || self.origins_give(21, lent, room) {
            return Err(21);
        }
        let no_room = lent.out.len() < 2 * most || self.origins_give(22, lent, room);
        if no_room && !self.makes(Mistake::RoomByAnswer) {
            return Err(22);
        }
        let mut cut = self.cut_ring(&ring, 0, &Box4::from_numbers(bounds));
        if self.makes(Mistake::ClosesTwiceInRingCall) {
            self.close_cut(&mut cut, &ring, Closing::InPolygon);
        }
        if lent.out.len() < 2 * cut.len() {
            return Err(22);
        }
        Ok((cut, room))
    }

    /// Whether a u16 slice is too short and that is refused with this number: the scratch slice, of S, with 21, the output, of the
    /// sum of the B, with 22.
    fn origins_give(&self, refusal: u8, lent: &Lent, room: Room) -> bool {
        let scratch_gives = if self.makes(Mistake::ShortOriginScratchIs22) { 22 } else { 21 };
        let output_gives = if self.makes(Mistake::ShortOriginsAre21) { 21 } else { 22 };
        let doubled = |mistake: Mistake| if self.makes(mistake) { 2 } else { 1 };
        let asked = if self.makes(Mistake::OriginScratchBySum) { room.sum } else { room.largest };
        let scratch_short = lent.origin_scratch.len() < doubled(Mistake::OriginScratchInNumbers) * asked
            && !self.makes(Mistake::OriginScratchUnseen);
        let output_short = lent.out_origins.len() < doubled(Mistake::OriginsInNumbers) * room.sum
            && !self.makes(Mistake::OriginsUnseen);
        (scratch_short && refusal == scratch_gives) || (output_short && refusal == output_gives)
    }

    /// The answer's number, or minus the number of the refusal.
    pub fn slice_call(&self, slices: &Slices, lent: &mut Lent) -> i64 {
        self.begin(lent);
        match self.slice_answer(slices, lent) {
            Err(refusal) => -i64::from(refusal),
            Ok((routed, mut room)) => {
                if self.makes(Mistake::ClearsByUnclosedLengths) {
                    room.sum = slices.lengths.iter().map(|&length| b(length as usize)).sum();
                }
                let written = self.written(slices, &routed);
                self.leave(lent, room, &written);
                self.code(&routed)
            }
        }
    }

    /// The answer + 256 x reason + 65,536 x rings of a cut, or the first position of an overlay + 2^40 x its second.
    fn code(&self, routed: &Routed) -> i64 {
        match routed {
            Routed::Nothing => 0,
            Routed::Dropped => 1,
            Routed::Unchanged => 2,
            Routed::Cut(rings) => 4 + 65_536 * rings.len() as i64,
            Routed::Overlay(Reason { number, first, second }) => {
                let wraps = self.makes(Mistake::PositionsIn16Bits);
                let held = |position: usize| if wraps { i64::from(position as u16) } else { position as i64 };
                5 + 256 * i64::from(*number) + 65_536 * held(*first) + (1 << 40) * held(*second)
            }
        }
    }

    /// What becomes of the polygon, and the room that it asks for.
    fn slice_answer(&self, slices: &Slices, lent: &Lent) -> Result<(Routed, Room), u8> {
        let rings = self.lent_rings(slices).ok_or(19)?;
        let lengths: Vec<usize> = rings.iter().map(|ring| self.length_for_room(ring)).collect();
        let room = self.test_lengths(&lengths, lent)?;
        let routed = self.polygon(&self.closed(&rings), &Bounds::new(slices.bounds, slices.buffer), slices.flags);
        match &routed {
            Routed::Cut(cut) if lent.out.len() < 2 * cut.concat().len() || lent.out_lengths.len() < cut.len() => {
                Err(22)
            }
            _ => Ok((routed, room)),
        }
    }

    /// 20 to 22 of a slice call whose rings have these lengths; else the room that they ask for.
    fn test_lengths(&self, lengths: &[usize], lent: &Lent) -> Result<Room, u8> {
        let too_many = if self.makes(Mistake::LimitByRing) {
            lengths.iter().any(|&length| self.too_many(length))
        } else {
            self.too_many(lengths.iter().sum())
        };
        if too_many {
            return Err(20);
        }
        let looked_at = if self.makes(Mistake::ScratchByExterior) { &lengths[..1] } else { lengths };
        let largest = looked_at.iter().map(|&n| b(n)).fold(0, usize::max);
        let sum: usize = lengths.iter().map(|&n| b(n)).sum();
        let room = Room { largest, sum };
        let asked = if self.makes(Mistake::ScratchBySum) { sum } else { largest };
        let short = lent.scratch.len() < 2 * asked && !self.makes(Mistake::ScratchUnseen);
        if short || lent.order.len() < largest || self.origins_give(21, lent, room) {
            return Err(21);
        }
        let no_room = lent.out.len() < 2 * sum || lent.out_lengths.len() < lengths.len();
        if (no_room || self.origins_give(22, lent, room)) && !self.makes(Mistake::RoomByAnswer) {
            return Err(22);
        }
        Ok(room)
    }

    /// A cut's rings with their origins, and their lengths; any other answer writes none of these.
    fn written(&self, slices: &Slices, routed: &Routed) -> Written {
        match routed {
            Routed::Cut(rings) => Written {
                numbers: numbers_of(&rings.concat()),
                origins: origins_of(&rings.concat()),
                lengths: rings.iter().map(|ring| ring.len() as u32).collect(),
            },
            Routed::Overlay(reason) if reason.is_of_cut() => self.left_behind_overlay(slices),
            _ => Written::default(),
        }
    }

    /// What an overlay that is found after the cut leaves of that: rightly nothing.
    fn left_behind_overlay(&self, slices: &Slices) -> Written {
        let (leaves_cut, leaves_origins) =
            (self.makes(Mistake::OverlayLeavesCut), self.makes(Mistake::OverlayLeavesOrigins));
        if !leaves_cut && !leaves_origins {
            return Written::default();
        }
        let rings = self.closed(&self.lent_rings(slices).unwrap_or_default());
        let cut = self.cut_rings(&rings, &Bounds::new(slices.bounds, slices.buffer)).concat();
        if leaves_cut {
            Written { numbers: numbers_of(&cut), ..Written::default() }
        } else {
            Written { origins: origins_of(&cut), ..Written::default() }
        }
    }

    /// Whether a call is refused with 20 for so many coordinates.
    pub fn too_many(&self, coordinates: usize) -> bool {
        let most = if self.makes(Mistake::FormerLimit) { MOST_BEFORE_ORIGINS } else { MOST_COORDINATES };
        coordinates > most || (self.makes(Mistake::LimitIsTooMany) && coordinates == most)
    }

    /// The lent rings, where there are 1 to 64 whose lengths together are the count of coordinates.
    fn lent_rings(&self, slices: &Slices) -> Option<Vec<Vec<Vertex>>> {
        if slices.lengths.is_empty() || slices.lengths.len() > MOST_RINGS {
            return None;
        }
        let sum: usize = slices.lengths.iter().map(|&length| length as usize).sum();
        let numbers = if self.makes(Mistake::WrapsLengths) { (2 * sum) as u32 as usize } else { 2 * sum };
        if numbers != slices.coords.len() {
            return None;
        }
        let mut rest = slices.coords;
        let mut next_ring = |&length: &u32| {
            // Lengths that only wrap to the right sum reach past the numbers.
            let (ring, behind) = rest.split_at(rest.len().min(2 * length as usize));
            rest = behind;
            vertices(ring)
        };
        Some(slices.lengths.iter().map(&mut next_ring).collect())
    }

    /// Before anything is tested: rightly, nothing is written.
    fn begin(&self, lent: &mut Lent) {
        if self.makes(Mistake::WritesBeforeRefusing) {
            lent.scratch.fill(0.0);
        }
        if self.makes(Mistake::WritesOriginsBeforeRefusing) {
            lent.origin_scratch.fill(0);
        }
    }

    /// What a success leaves: both scratch slices and order all zeros; the answer's numbers from the front of the output, zeros from
    /// there as far as 22 asks for room, and what stood behind that; so its origins; its lengths, and what stood behind them.
    fn leave(&self, lent: &mut Lent, room: Room, written: &Written) {
        let cleared = if self.makes(Mistake::ClearsScratchUsed) { room.largest } else { usize::MAX };
        lent.scratch.iter_mut().take(cleared.saturating_mul(2)).for_each(|number| *number = 0.0);
        lent.order.iter_mut().take(cleared).for_each(|position| *position = 0);

        let Written { numbers, origins, lengths } = written;
        let zero = if self.makes(Mistake::ClearsWithNegativeZeros) { -0.0 } else { 0.0 };
        let padded = numbers.iter().copied().chain(iter::repeat(zero));
        let end = self.end_of_zeros(room, numbers.len());
        lent.out.iter_mut().zip(padded).take(end).for_each(|(place, number)| *place = number);

        let cleared = self.cleared_origin_scratch(room);
        lent.origin_scratch.iter_mut().take(cleared).for_each(|origin| *origin = 0);
        let padded = origins.iter().copied().chain(iter::repeat(0));
        let end = self.end_of_zero_origins(room, origins.len());
        lent.out_origins.iter_mut().zip(padded).take(end).for_each(|(place, origin)| *place = origin);

        lent.out_lengths.iter_mut().zip(lengths).for_each(|(place, &length)| *place = length);
        if self.makes(Mistake::ClearsLengthsPastAnswer) {
            lent.out_lengths[lengths.len()..].fill(0);
        }
    }

    /// How far the output is written by an answer of so many numbers: whatever the answer is, as far as 22 asks for room.
    fn end_of_zeros(&self, room: Room, numbers: usize) -> usize {
        let is_left =
            self.makes(Mistake::KeepsOutputPastAnswer) || (self.makes(Mistake::ClearsOnCutOnly) && numbers == 0);
        if is_left {
            numbers
        } else if self.makes(Mistake::ClearsOutputToEnd) {
            usize::MAX
        } else {
            numbers.max(2 * room.sum)
        }
    }

    /// How far the u16 scratch slice is cleared: to its end.
    fn cleared_origin_scratch(&self, room: Room) -> usize {
        if self.makes(Mistake::KeepsOriginScratch) {
            0
        } else if self.makes(Mistake::ClearsOriginScratchUsed) {
            room.largest
        } else {
            usize::MAX
        }
    }

    /// How far the u16 output is written by an answer of so many origins: as far as 22 asks of it, by the output's own rule.
    fn end_of_zero_origins(&self, room: Room, origins: usize) -> usize {
        let is_left = self.makes(Mistake::KeepsOriginsPastAnswer)
            || (self.makes(Mistake::ClearsOriginsOnCutOnly) && origins == 0);
        if is_left {
            origins
        } else if self.makes(Mistake::ClearsOriginsToEnd) {
            usize::MAX
        } else if self.makes(Mistake::ClearsOriginsTwiceAsFar) {
            2 * room.sum
        } else {
            origins.max(room.sum)
        }
    }
}

/// Vertices as x, y numbers.
fn numbers_of(ring: &[Made]) -> Vec<f64> {
    ring.iter().flat_map(|made| [made.vertex.x, made.vertex.y]).collect()
}
