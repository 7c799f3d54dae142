//! One polygon: sections "Nothing, or dropped", "Unchanged", "Cut rings" and "Overlay wanted".

use crate::cut::Side;
use crate::origins::{vertices_of, Closing, Made};
use crate::reason::Reason;
use crate::{Mistake, Reading, Vertex};

/// Bounds, or the rectangle of some rings.
#[derive(Clone, Copy, Debug)]
pub struct Box4 {
    pub west: f64,
    pub south: f64,
    pub east: f64,
    pub north: f64,
}

impl Box4 {
    pub fn from_numbers([west, south, east, north]: [f64; 4]) -> Box4 {
        Box4 { west, south, east, north }
    }

    pub fn buffered(self, buffer: f64) -> Box4 {
        Box4 {
            west: self.west - buffer,
            south: self.south - buffer,
            east: self.east + buffer,
            north: self.north + buffer,
        }
    }

    pub fn inside(&self, bounds: &Box4) -> bool {
        self.west >= bounds.west && self.east <= bounds.east && self.south >= bounds.south && self.north <= bounds.north
    }
}

/// The all-ring rectangle.
pub enum Rectangle {
    None,
    NotFinite,
    Numbers(Box4),
}

#[derive(Clone, Copy, Debug)]
pub struct Flags {
    pub assume_simple: bool,
    pub skip_boundary_fallback: bool,
}

/// The bounds of a call: as given, and with the buffer.
#[derive(Clone, Copy)]
pub struct Bounds {
    pub given: Box4,
    pub buffered: Box4,
}

impl Bounds {
    pub fn new(numbers: [f64; 4], buffer: f64) -> Bounds {
        let given = Box4::from_numbers(numbers);
        Bounds { given, buffered: given.buffered(buffer) }
    }
}

/// What becomes of a polygon.
#[derive(Clone, Debug)]
pub enum Routed {
    Nothing,
    Dropped,
    Unchanged,
    Cut(Vec<Vec<Made>>),
    Overlay(Reason),
}

impl Reading {
    /// Over the exterior and all holes.
    pub fn rectangle(&self, rings: &[Vec<Vertex>]) -> Rectangle {
        let exterior = &rings[..rings.len().min(1)];
        let finite = if self.makes(Mistake::FiniteByExterior) { exterior } else { rings };
        if rings.iter().all(Vec::is_empty) {
            return Rectangle::None;
        }
        if !finite.iter().flatten().all(|v| v.is_finite()) {
            return Rectangle::NotFinite;
        }
        let counted =
            if self.makes(Mistake::RectangleOfExterior) && !exterior.concat().is_empty() { exterior } else { rings };
        Rectangle::Numbers(smallest_box(counted))
    }

    pub fn apart(&self, rectangle: &Box4, bounds: &Box4) -> bool {
        let (r, b) = (rectangle, bounds);
        if self.makes(Mistake::ApartAsOr) {
            return r.east < b.west || r.west > b.east || r.north < b.south || r.south > b.north;
        }
        if self.makes(Mistake::TouchingIsApart) {
            return !(r.east > b.west && r.west < b.east && r.north > b.south && r.south < b.north);
        }
        !(r.east >= b.west && r.west <= b.east && r.north >= b.south && r.south <= b.north)
    }

    /// Whether rings that are not all finite are passed over as apart, which only a mistake does.
    pub fn apart_before_finite(&self, rings: &[Vec<Vertex>], bounds: &Bounds) -> bool {
        self.makes(Mistake::BoundsBeforeFinite) && self.apart(&smallest_box(rings), &bounds.buffered)
    }

    /// A polygon whose rings are closed.
    pub fn polygon(&self, rings: &[Vec<Vertex>], bounds: &Bounds, flags: Flags) -> Routed {
        let rectangle = match self.rectangle(rings) {
            Rectangle::None => return Routed::Nothing,
            Rectangle::NotFinite if self.apart_before_finite(rings, bounds) => return Routed::Nothing,
            Rectangle::NotFinite => return Routed::Dropped,
            Rectangle::Numbers(rectangle) => rectangle,
        };
        if self.apart(&rectangle, &bounds.buffered) {
            return Routed::Nothing;
        }
        if self.makes(Mistake::EmptyExteriorIsNothing) && rings[0].is_empty() {
            return Routed::Nothing;
        }
        let inside = rectangle.inside(&bounds.buffered);
        if inside && self.makes(Mistake::InsideBeforeIssues) {
            return Routed::Unchanged;
        }
        let checked = if self.makes(Mistake::ChecksHoles) { rings } else { &rings[..1] };
        let reader = if self.makes(Mistake::ExactOfCutOnly) { &Reading::ROUNDED } else { self };
        let found = checked.iter().find_map(|ring| Some((ring, reader.issue(ring, flags.assume_simple)?)));
        if let Some((ring, issue)) = found {
            return self.overlay(rings, self.input_reason(ring, issue));
        }
        if inside {
            return Routed::Unchanged;
        }
        self.cut(rings, bounds, flags)
    }

    fn cut(&self, rings: &[Vec<Vertex>], bounds: &Bounds, flags: Flags) -> Routed {
        let cut = self.cut_rings(rings, bounds);
        let fewest = if self.makes(Mistake::LeavesOutShortExterior) { 4 } else { 1 };
        if cut[0].len() < fewest {
            return Routed::Nothing;
        }
        let vertices: Vec<Vec<Vertex>> = cut.iter().map(|ring| vertices_of(ring)).collect();
        match self.reason(&rings[0], &vertices, bounds, flags) {
            Some(reason) => self.overlay(rings, reason),
            None => Routed::Cut(cut),
        }
    }

    /// The exterior, cut, and the cut holes that are not left out, as the polygon holds them.
    pub fn cut_rings(&self, rings: &[Vec<Vertex>], bounds: &Bounds) -> Vec<Vec<Made>> {
        let fewest = if self.makes(Mistake::KeepsShortHoles) { 1 } else { 4 };
        let mut before = 0;
        let mut cut = Vec::new();
        for (number, input) in rings.iter().enumerate() {
            let mut ring = self.cut_ring(input, before, &bounds.buffered);
            before += input.len();
            if number > 0 && ring.len() < fewest {
                continue;
            }
            if !self.makes(Mistake::ClosesCutRingsOnce) {
                self.close_cut(&mut ring, input, Closing::InPolygon);
            }
            cut.push(ring);
        }
        cut
    }

    /// Why the cut of a polygon with this exterior won't do.
    fn reason(&self, input: &[Vertex], cut: &[Vec<Vertex>], bounds: &Bounds, flags: Flags) -> Option<Reason> {
        let reader = if self.makes(Mistake::ExactOfInputOnly) { &Reading::ROUNDED } else { self };
        let issue = reader.issue(&cut[0], flags.assume_simple);
        if let Some(issue) = issue.filter(|_| !self.makes(Mistake::CutIssuesUnseen)) {
            return Some(self.cut_reason(input, &cut[0], issue));
        }
        let skipped = if self.makes(Mistake::SkipsBridgesOnFlag2) {
            flags.skip_boundary_fallback
        } else if self.makes(Mistake::SkipsBridgesOnFlag1) {
            flags.assume_simple
        } else {
            flags.assume_simple && flags.skip_boundary_fallback
        };
        if skipped {
            return None;
        }
        let looked_at = if self.makes(Mistake::BridgesInHoles) { cut } else { &cut[..1] };
        looked_at.iter().find_map(|ring| self.bridge(ring, bounds))
    }

    /// Reasons 3 to 6, which have no positions.
    fn bridge(&self, ring: &[Vertex], bounds: &Bounds) -> Option<Reason> {
        let bounds = if self.makes(Mistake::BridgesUnbuffered) { &bounds.given } else { &bounds.buffered };
        let runs_along = |ends: &[Vertex], side: Side| {
            let bound = side.bound(bounds);
            (self.makes(Mistake::ShortBridges) || !self.near_vertices(ends[0], ends[1]))
                && ends.iter().all(|&end| self.near(side.across_and_along(end).0, bound))
        };
        let numbers = || (3..).zip(Side::ORDER);
        let mut edges = ring.windows(2).enumerate();
        let reason = |number: u8, edge: usize| {
            let first = if self.makes(Mistake::BridgeHasPosition) { edge } else { 0 };
            Reason { number, first, second: 0 }
        };
        if self.makes(Mistake::BridgeByLine) {
            return numbers()
                .find(|&(_, side)| edges.clone().any(|(_, ends)| runs_along(ends, side)))
                .map(|(number, _)| reason(number, 0));
        }
        edges.find_map(|(k, ends)| {
            let (number, _) = numbers().find(|&(_, side)| runs_along(ends, side))?;
            Some(reason(number, k))
        })
    }

    /// An overlay, or dropped where a coordinate of the polygon has magnitude 1e150 or more.
    fn overlay(&self, rings: &[Vec<Vertex>], reason: Reason) -> Routed {
        let looked_at = if self.makes(Mistake::RepresentableByExterior) { &rings[..1] } else { rings };
        if looked_at.iter().flatten().any(|&v| self.too_large(v)) {
            Routed::Dropped
        } else {
            Routed::Overlay(reason)
        }
    }

    pub fn too_large(&self, v: Vertex) -> bool {
        let magnitude = v.x.abs().max(v.y.abs());
        if self.makes(Mistake::RepresentableAtLimit) {
            magnitude > 1e150
        } else {
            magnitude >= 1e150
        }
    }
}

/// The rectangle of these rings' coordinates, of which there is at least one.
fn smallest_box(rings: &[Vec<Vertex>]) -> Box4 {
    let empty = Box4 { west: f64::INFINITY, south: f64::INFINITY, east: -f64::INFINITY, north: -f64::INFINITY };
    rings.iter().flatten().fold(empty, |b, v| Box4 {
        west: b.west.min(v.x),
        south: b.south.min(v.y),
        east: b.east.max(v.x),
        north: b.north.max(v.y),
    })
}
