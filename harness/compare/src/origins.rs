//! What has to hold of the origins of any cut, tested on coordinates alone: neither the oracle's walk nor the second reading is asked.

use formats::answer::{Answer, Listed, ListedPart};
use formats::frame::Frame;
use formats::origins::{line_of, CutRing};
use formats::passes::Edge;
use formats::{same_coord, same_number, Bounds, Coord, Part, Ring};

/// Passes leave off at most so many vertices at the end of a ring, one each.
const MOST_LEFT_OFF: usize = 4;

/// What does not hold of the origins of a ring that was cut to `cut` by a ring call. A position's vertex stands there bit for bit
/// (any NaN for any NaN), and so does a line's bound; positions rise up to the closing vertex; no vertex inside is missing.
pub fn broken(bounds: &Bounds, ring: &Ring, cut: &CutRing) -> Option<&'static str> {
    broken_with(1, bounds, ring, cut)
}

/// The same of a ring of a polygon, which is closed once more where its first coordinate holds a NaN.
fn broken_in_polygon(bounds: &Bounds, ring: &Ring, cut: &CutRing) -> Option<&'static str> {
    let closes_twice = cut.ring.first().is_some_and(|&(x, y)| x.is_nan() || y.is_nan());
    broken_with(if closes_twice { 2 } else { 1 }, bounds, ring, cut)
}

fn broken_with(closings: usize, bounds: &Bounds, ring: &Ring, cut: &CutRing) -> Option<&'static str> {
    if cut.ring.len() != cut.origins.len() {
        return Some("not as many origins as vertices");
    }
    let position_holds = |vertex: Coord, at: usize| ring.get(at).is_some_and(|&lent| same_coord(lent, vertex));
    let line_holds = |vertex: Coord, line: Edge| fixed(line, bounds, vertex);
    for (vertex, origin) in cut.vertices() {
        match line_of(origin) {
            None if !position_holds(vertex, usize::from(origin)) => return Some("another vertex stands at a position"),
            Some(line) if !line_holds(vertex, line) => return Some("a vertex of a line is not on it"),
            _ => {}
        }
    }
    let positions = positions(closings, cut);
    if !positions.windows(2).all(|pair| pair[0] < pair[1]) {
        return Some("positions don't rise");
    }
    if !cut.ring.is_empty() && !has_those_inside(bounds, ring, cut, &positions) {
        return Some("a vertex inside is missing");
    }
    None
}

/// What does not hold of the origins of a polygon's rings, cut at these bounds. Which holes are left out is not told: each ring of the
/// cut is held to the first hole behind those before it of which all holds.
pub fn broken_rings(bounds: &Bounds, part: &Part, cut: &[CutRing]) -> Option<&'static str> {
    let (exterior, holes) = cut.split_first()?;
    let mut lent = part[1..].iter();
    broken_in_polygon(bounds, &part[0], exterior).or_else(|| {
        let has_none = |hole: &CutRing| !lent.any(|ring| broken_in_polygon(bounds, ring, hole).is_none());
        holes.iter().any(has_none).then_some("a cut hole is of no hole that was lent")
    })
}

/// What does not hold of the origins in an answer to a frame.
pub fn broken_frame(frame: &[u8], answer: &[u8]) -> Option<&'static str> {
    let (Ok(frame), Some(Ok(answer))) = (Frame::decode(frame), Answer::decode(answer)) else {
        return Some("neither a frame nor an answer");
    };
    let Answer::Listed { parts, .. } = answer else {
        return None;
    };
    let bounds = buffered(&frame.bounds, frame.buffer);
    parts.iter().find_map(|ListedPart { index, listed }| match listed {
        Listed::Cut(rings) => broken_rings(&bounds, &frame.parts[usize::from(*index)], rings),
        _ => None,
    })
}

/// The bounds that frames and slice calls are cut at.
pub fn buffered(&[west, south, east, north]: &Bounds, buffer: f64) -> Bounds {
    [west - buffer, south - buffer, east + buffer, north + buffer]
}

/// Whether the line's bound stands in the coordinate that it fixes.
fn fixed(line: Edge, &[west, south, east, north]: &Bounds, (x, y): Coord) -> bool {
    match line {
        Edge::Left => same_number(x, west),
        Edge::Right => same_number(x, east),
        Edge::Bottom => same_number(y, south),
        Edge::Top => same_number(y, north),
    }
}

/// The positions of a cut ring without those of closing vertices: the last ones, at most so many, that are its first again.
fn positions(closings: usize, cut: &CutRing) -> Vec<usize> {
    let mut vertices: Vec<(Coord, u16)> = cut.vertices().collect();
    for _ in 0..closings {
        let is_first_again = vertices.len() > 1 && {
            let (first, last) = (vertices[0], vertices[vertices.len() - 1]);
            same_coord(first.0, last.0) && first.1 == last.1
        };
        if is_first_again {
            vertices.pop();
        }
    }
    vertices.iter().map(|&(_, origin)| origin).filter(|&origin| line_of(origin).is_none()).map(usize::from).collect()
}

/// Whether the positions are those of all vertices inside the bounds, but for some at the end that passes leave off: each of these
/// equals one that stays.
fn has_those_inside(bounds: &Bounds, ring: &Ring, cut: &CutRing, positions: &[usize]) -> bool {
    let &[west, south, east, north] = bounds;
    let is_inside = |&(x, y): &Coord| x >= west && x <= east && y >= south && y <= north;
    let inside: Vec<usize> = (0..ring.len()).filter(|&k| is_inside(&ring[k])).collect();
    let Some(left_off) = inside.strip_prefix(positions) else {
        return false;
    };
    left_off.len() <= MOST_LEFT_OFF && left_off.iter().all(|&k| cut.ring.contains(&ring[k]))
}
