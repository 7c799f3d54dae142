//! The oracle: what the unchanged Rust answers to document 01's calls. Result, coordinates, guard count and overlay calls
//! come from one run of `clip_geometry_simple` on the whole geometry; only part numbers and reasons with their positions, which
//! the Rust doesn't give, are asked of its predicates part by part. Single passes come from its `clip_ring_against_edge`, single
//! cuts from its `intersect`. Origins, which it doesn't give either, come from a walk of its passes by its own verdicts and crossings. It
//! mends no ring: of mended ones it says how a ring is closed, which corners are near, and whether one is repeated.

mod answer;
mod convert;
mod issue;
mod lines;
mod origins;
mod pass;
mod route;
mod run;

use formats::answer::{Answer, Listed};
use formats::calls::{RingCall, SliceAnswer, SliceCall};
use formats::frame::{Frame, POLYGON};
use formats::origins::CutRing;
use formats::{pairs, Coord, Refusal, Ring};
use geo::algorithm::line_intersection::line_intersection;
use geo::{Geometry, Line, MultiPolygon};
use tylertoo::clip::opened as clip;

use convert::{bounds_of, coord_of, coords_of, polygon_of, ring_of};
use run::Hints;

pub use issue::Issue;
pub use lines::lines;
pub use pass::{crossing, pass};
pub use tylertoo::tile::TileBounds;

/// The frame call with `room` bytes of output.
pub fn answer(frame: &[u8], room: usize) -> Result<Vec<u8>, Refusal> {
    let frame = Frame::decode(frame)?;
    if room < frame.room() {
        return Err(22);
    }
    let polygons: Vec<_> = frame.parts.iter().map(|part| polygon_of(part)).collect();
    let geometry = if frame.kind == POLYGON {
        Geometry::Polygon(polygons.into_iter().next().expect("a kind 3 frame has one part"))
    } else {
        Geometry::MultiPolygon(MultiPolygon::new(polygons))
    };
    let hints = Hints { assume_simple: frame.flags & 1 != 0, skip_boundary_fallback: frame.flags & 2 != 0 };
    Ok(answer::answer(&geometry, &bounds_of(frame.bounds), frame.buffer, hints).encode())
}

/// The vertices that a ring call writes: `clip_ring` on the ring as it is lent.
pub fn ring_call(call: &RingCall) -> Result<CutRing, Refusal> {
    match call.refusal() {
        Some(refusal) => Err(refusal),
        None => Ok(origins::cut_ring(&coords_of(&pairs(&call.ring)), &bounds_of(call.bounds))),
    }
}

pub fn slice_call(call: &SliceCall) -> Result<SliceAnswer, Refusal> {
    let rings = call.rings()?;
    if let Some(refusal) = call.refusal(&rings) {
        return Err(refusal);
    }
    let hints = Hints { assume_simple: call.assume_simple, skip_boundary_fallback: call.skip_boundary_fallback };
    let geometry = Geometry::Polygon(polygon_of(&rings));
    Ok(match answer::answer(&geometry, &bounds_of(call.bounds), call.buffer, hints) {
        Answer::Nothing { .. } => SliceAnswer::Nothing,
        Answer::Dropped => SliceAnswer::Dropped,
        Answer::Unchanged => SliceAnswer::Unchanged,
        Answer::Listed { mut parts, .. } => match parts.pop().expect("a polygon is listed as one part").listed {
            Listed::Unchanged => SliceAnswer::Unchanged,
            Listed::Cut(rings) => SliceAnswer::Cut(rings),
            Listed::Overlay(reason) => SliceAnswer::Overlay(reason),
        },
    })
}

/// The first pair of edges of the ring that cross, as it is lent.
pub fn first_crossing(ring: &[Coord]) -> Option<(usize, usize)> {
    issue::first_crossing(&coords_of(ring))
}

/// Whether the edges from the first end to the second and from the third to the fourth cross.
pub fn edges_cross(ends: [Coord; 4]) -> bool {
    let [a, b] = lines_between(ends);
    issue::cross(a, b)
}

/// Whether `line_intersection`, which the Rust asks of edges that cross, finds a point of both: the answer of the stand-in.
pub fn finds_intersection(ends: [Coord; 4]) -> bool {
    let [a, b] = lines_between(ends);
    line_intersection(a, b).is_some()
}

fn lines_between(ends: [Coord; 4]) -> [Line<f64>; 2] {
    let [a, b, c, d] = ends.map(coord_of);
    [Line::new(a, b), Line::new(c, d)]
}

/// The first issue of a polygon with this exterior, closed.
pub fn issue(ring: &[Coord], assume_simple: bool) -> Option<Issue> {
    issue::issue_of(&polygon_of(&[ring.to_vec()]), assume_simple)
}

/// The ring as a polygon holds it, closed by `Polygon::new`.
pub fn closed(ring: &[Coord]) -> Ring {
    ring_of(&polygon_of(&[ring.to_vec()]).exterior().0)
}

/// Whether two coordinates are near enough to be a repeated corner.
pub fn are_near(a: Coord, b: Coord) -> bool {
    issue::are_near(coord_of(a), coord_of(b))
}

/// Whether a polygon with this exterior, closed, has a repeated corner; asked only of four coordinates or more.
pub fn has_repeated(ring: &[Coord]) -> bool {
    issue::has_repeated(&polygon_of(&[ring.to_vec()]))
}

/// The pairs of edges that scan or sweep visit, each as its two edges' ends.
pub fn visited_edge_pairs(ring: &[Coord]) -> Vec<[Coord; 4]> {
    let mut visited = Vec::new();
    clip::any_edge_pair(&coords_of(ring), |a, b| {
        visited.push([a.start, a.end, b.start, b.end].map(|end| (end.x, end.y)));
        false
    });
    visited
}
