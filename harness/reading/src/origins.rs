//! Where each vertex of a cut came from: document 02, point 12. "The position in its input ring, or the line that made it."

use std::collections::HashMap;

use crate::cut::Side;
use crate::polygon::Box4;
use crate::{Mistake, Reading, Vertex};

/// A vertex and its origin: a position, or 65,532 to 65,535 for the four lines.
#[derive(Clone, Copy, Debug)]
pub struct Made {
    pub vertex: Vertex,
    pub origin: u16,
}

/// The lowest number of a line.
const LOWEST_LINE: u16 = 65_532;

/// Which of the two closings of a cut ring: every one has the first after the passes, and the polygon's rings have a second.
#[derive(Clone, Copy, PartialEq)]
pub enum Closing {
    AfterPasses,
    InPolygon,
}

impl Made {
    fn is_of_line(self) -> bool {
        self.origin >= LOWEST_LINE
    }
}

impl Reading {
    /// The input ring, each vertex with its position in it. Those of a hole begin at 0 too: `before` counts the coordinates of the
    /// rings before it, which play no part.
    pub fn with_positions(&self, ring: &[Vertex], before: usize) -> Vec<Made> {
        let mut from = usize::from(self.makes(Mistake::OriginsFromOne));
        if self.makes(Mistake::PositionsInPart) {
            from += before;
        }
        ring.iter().enumerate().map(|(k, &vertex)| Made { vertex, origin: (from + k) as u16 }).collect()
    }

    /// The number of the line: Left, Right, Bottom, Top.
    pub fn line_number(&self, side: Side) -> u16 {
        let swapped = match side {
            Side::Left | Side::Right => self.makes(Mistake::SwapsLeftAndRight),
            Side::Bottom | Side::Top => self.makes(Mistake::SwapsBottomAndTop),
        };
        match side {
            Side::Left => LOWEST_LINE + u16::from(swapped),
            Side::Right => LOWEST_LINE + 1 - u16::from(swapped),
            Side::Bottom => LOWEST_LINE + 2 + u16::from(swapped),
            Side::Top => LOWEST_LINE + 3 - u16::from(swapped),
        }
    }

    /// Of a crossing: the line that made it, whatever its ends are.
    pub fn crossing_origin(&self, start: Made, end: Made, side: Side) -> u16 {
        let is_of_one_line = start.origin == end.origin && start.is_of_line();
        if self.makes(Mistake::CrossingHasEndsOrigin) {
            end.origin
        } else if self.makes(Mistake::CrossingHasStartsOrigin)
            || (self.makes(Mistake::CornerHasEarlierLine) && is_of_one_line)
        {
            start.origin
        } else {
            self.line_number(side)
        }
    }

    /// Of an end that the pass keeps, the k-th of its ring: its own, whichever line made it and wherever it lies.
    pub fn kept_origin(&self, end: Made, k: usize, side: Side, bounds: &Box4) -> u16 {
        let is_on_line = side.across_and_along(end.vertex).0 == side.bound(bounds);
        let has_line = (self.makes(Mistake::OnLineHasLine) && is_on_line)
            || (self.makes(Mistake::KeptHasLaterLine) && end.is_of_line());
        if has_line {
            self.line_number(side)
        } else if self.makes(Mistake::RenumbersInEachPass) && !end.is_of_line() {
            k as u16
        } else {
            end.origin
        }
    }

    /// Rightly nothing: a vertex that a pass leaves off goes with its origin.
    pub fn leave_off(&self, kept: &mut [Made], left_off: Made) {
        if self.makes(Mistake::LeftOffGivesOrigin) {
            kept[0].origin = left_off.origin;
        }
    }

    /// Appends the first vertex to a cut ring whose last doesn't equal it, with the first's origin. `input` is the ring that was cut.
    pub fn close_cut(&self, ring: &mut Vec<Made>, input: &[Vertex], closing: Closing) {
        let (Some(&first), Some(&last)) = (ring.first(), ring.last()) else {
            return;
        };
        if !self.is_open(first.vertex, last.vertex) {
            return;
        }
        let is_lent_closed = input.len() > 1 && input[0].equals(input[input.len() - 1]);
        let is_second = closing == Closing::InPolygon;
        let origin = if self.makes(Mistake::ClosingHasLastsOrigin) {
            last.origin
        } else if self.makes(Mistake::ClosingHasLine) || (self.makes(Mistake::SecondClosingHasLine) && is_second) {
            self.line_number(Side::Top)
        } else if self.makes(Mistake::ClosingHasLentPosition) && first.origin == 0 && is_lent_closed {
            (input.len() - 1) as u16
        } else if self.makes(Mistake::SecondClosingHasNone) && is_second {
            0
        } else {
            first.origin
        };
        ring.push(Made { vertex: first.vertex, origin });
    }

    /// Rightly nothing: a crossing that equals a vertex of the input has its line all the same.
    pub fn compare_origins(&self, ring: &mut [Made], input: &[Vertex]) {
        if !self.makes(Mistake::OriginByComparing) {
            return;
        }
        // Equal zeros have equal bits here; a NaN, which equals nothing, is left out.
        let bits = |v: Vertex| [v.x + 0.0, v.y + 0.0].map(f64::to_bits);
        let mut places = HashMap::new();
        for (k, &v) in input.iter().enumerate().filter(|(_, v)| v.equals(**v)) {
            places.entry(bits(v)).or_insert(k as u16);
        }
        for made in ring {
            made.origin = places.get(&bits(made.vertex)).copied().unwrap_or(made.origin);
        }
    }
}

/// The vertices without their origins.
pub fn vertices_of(ring: &[Made]) -> Vec<Vertex> {
    ring.iter().map(|made| made.vertex).collect()
}

/// The origins alone.
pub fn origins_of(ring: &[Made]) -> Vec<u16> {
    ring.iter().map(|made| made.origin).collect()
}
