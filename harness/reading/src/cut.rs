//! Section "Cut rings": four passes, and the first closing. Each pass keeps the last verdict from step to step and counts those
//! that it works out: document 02, point 3. Vertices go through the passes with their origins.

use crate::origins::{Closing, Made};
use crate::polygon::Box4;
use crate::{Mistake, Reading, Vertex};

/// How far a mistaken reading moves a crossing: 1/2^39, twice what document 02's point 8 allows.
const MOVED: f64 = 1.0 / (1u64 << 39) as f64;

#[derive(Clone, Copy, Debug, PartialEq)]
pub enum Side {
    Left,
    Right,
    Bottom,
    Top,
}

impl Side {
    pub const ORDER: [Side; 4] = [Side::Left, Side::Right, Side::Bottom, Side::Top];

    /// The bound's own line.
    pub fn bound(self, bounds: &Box4) -> f64 {
        match self {
            Side::Left => bounds.west,
            Side::Right => bounds.east,
            Side::Bottom => bounds.south,
            Side::Top => bounds.north,
        }
    }

    /// The coordinate that the line bounds, then the other one.
    pub fn across_and_along(self, v: Vertex) -> (f64, f64) {
        match self {
            Side::Left | Side::Right => (v.x, v.y),
            Side::Bottom | Side::Top => (v.y, v.x),
        }
    }

    /// Whether a coordinate across the line is in: on the line is in, and a NaN is out.
    pub fn holds(self, across: f64, bound: f64) -> bool {
        match self {
            Side::Left | Side::Bottom => across >= bound,
            Side::Right | Side::Top => across <= bound,
        }
    }

    fn vertex(self, across: f64, along: f64) -> Vertex {
        match self {
            Side::Left | Side::Right => Vertex { x: across, y: along },
            Side::Bottom | Side::Top => Vertex { x: along, y: across },
        }
    }
}

/// One cut: the line, by its side and where it is, and the edge that it cuts, from start to end.
#[derive(Clone, Copy, Debug)]
pub struct Cut {
    pub side: Side,
    pub bound: f64,
    pub start: Vertex,
    pub end: Vertex,
}

/// What a pass gives: its vertices, and how many verdicts it worked out.
pub struct Passed {
    pub vertices: Vec<Made>,
    pub verdicts: usize,
}

/// Says of vertices whether they are in, and counts how often it does.
struct Judge<'a> {
    reading: &'a Reading,
    side: Side,
    bounds: &'a Box4,
    verdicts: usize,
}

impl Judge<'_> {
    fn is_in(&mut self, v: Vertex) -> bool {
        self.verdicts += 1;
        let (across, _) = self.side.across_and_along(v);
        let bound = self.side.bound(self.bounds);
        let left_out = self.reading.makes(Mistake::OnLineIsOut) && across == bound;
        self.side.holds(across, bound) && !left_out
    }

    /// One verdict more, which only this mistake works out, and which decides nothing.
    fn needlessly(&mut self, mistake: Mistake, v: Vertex) {
        if self.reading.makes(mistake) {
            self.is_in(v);
        }
    }
}

impl Reading {
    /// The cut ring, closed once; empty where fewer than 3 vertices are left. So many coordinates are in the rings before it.
    pub fn cut_ring(&self, input: &[Vertex], before: usize, bounds: &Box4) -> Vec<Made> {
        let mut order = Side::ORDER;
        if self.makes(Mistake::LatitudesFirst) {
            order.rotate_left(2);
        }
        let mut ring = self.with_positions(input, before);
        for (number, side) in order.into_iter().enumerate() {
            if self.makes(Mistake::CutsAtLeftOnly) && side != Side::Left {
                continue;
            }
            let leaves_off = number == 0 || !self.makes(Mistake::LeavesOffInFirstPassOnly);
            ring = self.pass(&ring, side, bounds, leaves_off).vertices;
        }
        if ring.len() < 3 {
            return Vec::new();
        }
        self.compare_origins(&mut ring, input);
        self.close_cut(&mut ring, input, Closing::AfterPasses);
        ring
    }

    /// One pass. The verdict on an end is kept: the next step has that vertex for its start.
    pub fn pass(&self, ring: &[Made], side: Side, bounds: &Box4, leaves_off: bool) -> Passed {
        let mut kept = if leaves_off { without_closing(ring).to_vec() } else { ring.to_vec() };
        let mut judge = Judge { reading: self, side, bounds, verdicts: 0 };
        if let Some(&left_off) = ring.get(kept.len()) {
            judge.needlessly(Mistake::JudgesVertexLeftOff, left_off.vertex);
            self.leave_off(&mut kept, left_off);
        }
        let Some(&last) = kept.last() else {
            let one_more = usize::from(self.makes(Mistake::CountsOneForNone));
            return Passed { vertices: Vec::new(), verdicts: judge.verdicts + one_more };
        };
        let (mut start, mut start_in) = (last, judge.is_in(last.vertex));
        if self.makes(Mistake::FirstVerdictUncounted) {
            judge.verdicts = 0;
        }
        let mut vertices = Vec::new();
        for (k, &end) in kept.iter().enumerate() {
            if k > 0 {
                judge.needlessly(Mistake::JudgesStartsAnew, start.vertex);
            }
            let end_in = judge.is_in(end.vertex);
            if start_in != end_in {
                judge.needlessly(Mistake::JudgesAgainAtCrossing, start.vertex);
                let cut = Cut { side, bound: side.bound(bounds), start: start.vertex, end: end.vertex };
                vertices.push(Made { vertex: self.crossing(&cut), origin: self.crossing_origin(start, end, side) });
            }
            if end_in {
                vertices.push(Made { vertex: end.vertex, origin: self.kept_origin(end, k, side, bounds) });
            }
            (start, start_in) = (end, end_in);
        }
        Passed { vertices, verdicts: judge.verdicts }
    }

    /// Where the line crosses the edge, as a pass works it out.
    pub fn crossing(&self, &Cut { side, bound, start, end }: &Cut) -> Vertex {
        let (start, end) = if self.makes(Mistake::CrossingFromEnd) { (end, start) } else { (start, end) };
        let (from, from_along) = side.across_and_along(start);
        let (to, to_along) = side.across_and_along(end);
        let t = self.share(bound, from, to);
        let interpolated = from_along + t * (to_along - from_along);
        let along = match self.mistake {
            Some(Mistake::FusesCrossing) => t.mul_add(to_along - from_along, from_along),
            Some(Mistake::ShareFromEnd) => to_along + t * (from_along - to_along),
            Some(Mistake::FreeIsAcross) => from + t * (to - from),
            Some(Mistake::CrossingMoved) => interpolated + MOVED,
            Some(Mistake::NanForZero) if interpolated == 0.0 => f64::NAN,
            _ => interpolated,
        };
        let across = if self.makes(Mistake::CrossingMissesBound) { from + t * (to - from) } else { bound };
        side.vertex(across, along)
    }

    /// How much of the way from the one end to the other the line is at.
    fn share(&self, bound: f64, from: f64, to: f64) -> f64 {
        match self.mistake {
            Some(Mistake::DivisorTurnedRound) => (bound - from) / (from - to),
            Some(Mistake::ShareOf32Bits) => f64::from((bound - from) as f32 / (to - from) as f32),
            _ => (bound - from) / (to - from),
        }
    }
}

/// What is left of a list of two or more whose first equals its last; any other is left whole.
fn without_closing(ring: &[Made]) -> &[Made] {
    match ring {
        [before @ .., last] if !before.is_empty() && before[0].vertex.equals(last.vertex) => before,
        _ => ring,
    }
}
