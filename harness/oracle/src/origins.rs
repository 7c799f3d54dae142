//! Where the vertices of a cut came from. The Rust decides coordinates and says nothing of origins, so each pass is walked once more
//! beside its own: step by step, by its own `is_inside` and `intersect`, each vertex with its origin. Where what is walked is not, bit
//! for bit, what the Rust's own pass makes of the same vertices, or all four passes and the closing are not its `clip_ring`, the
//! harness stops: then the walk is not the Rust's, and its origins would not count. The coordinates that are given are the Rust's own.

use formats::origins::{line_origin, CutRing};
use formats::passes::Edge;
use formats::shown::shortened;
use formats::{flat, same_numbers, Ring};
use geo::{Coord, Polygon};
use tylertoo::sutherland_hodgman::opened::clip_ring;
use tylertoo::tile::TileBounds;
use tylertoo_pass::unchanged::opened as cutter;

use crate::convert::{coords_of, ring_of, rings_of};

/// A vertex on its way through the passes.
#[derive(Clone, Copy)]
pub struct Vertex {
    pub at: Coord<f64>,
    pub origin: u16,
}

/// A hole that is cut to fewer coordinates is left out.
const FEWEST_IN_HOLE: usize = 4;

/// The ring, cut as `clip_ring` does.
pub fn cut_ring(ring: &[Coord<f64>], bounds: &TileBounds) -> CutRing {
    cut_ring_of(&walked_ring(ring, bounds))
}

/// The rings of a polygon that the Rust cut to `cut`. They are closed once more, as `Polygon::new` does.
pub fn cut_rings(polygon: &Polygon<f64>, bounds: &TileBounds, cut: &Polygon<f64>) -> Vec<CutRing> {
    let exterior = walked_ring(&polygon.exterior().0, bounds);
    let holes = polygon.interiors().iter().map(|hole| walked_ring(&hole.0, bounds));
    let stay = holes.filter(|hole| hole.len() >= FEWEST_IN_HOLE);
    let mut walked: Vec<Vec<Vertex>> = std::iter::once(exterior).chain(stay).collect();
    let rings = rings_of(cut);
    assert_eq!(walked.len(), rings.len(), "the Rust cut to another count of rings than the walk");
    walked.iter_mut().for_each(close);
    let given = |(walked, ring): (&Vec<Vertex>, &Ring)| given_origins("polygon", &coords_of(ring), walked);
    walked.iter().zip(&rings).map(given).map(|ring| cut_ring_of(&ring)).collect()
}

/// One pass over vertices with their origins: one that is kept keeps its own, and every crossing has the line.
pub fn walked_pass(ring: &[Vertex], edge: Edge, bounds: &TileBounds) -> Vec<Vertex> {
    let line = edge as usize;
    let is_in = |vertex: &Vertex| cutter::is_inside(&vertex.at, line, bounds);
    let left = &ring[..ring.len() - usize::from(is_closed(ring))];
    let starts = left.iter().cycle().skip(left.len().saturating_sub(1));
    let mut made = Vec::new();
    for (start, end) in starts.zip(left) {
        let crossing = || Vertex { at: cutter::intersect(&start.at, &end.at, line, bounds), origin: line_origin(edge) };
        match (is_in(start), is_in(end)) {
            (true, true) => made.push(*end),
            (true, false) => made.push(crossing()),
            (false, true) => made.extend([crossing(), *end]),
            (false, false) => {}
        }
    }
    given_origins("pass", &cutter::clip_ring_against_edge(&coords(ring), line, bounds), &made)
}

/// The four passes, and the first closing.
fn walked_ring(ring: &[Coord<f64>], bounds: &TileBounds) -> Vec<Vertex> {
    let position = |k: usize| u16::try_from(k).expect("no ring of a call has so many coordinates");
    let lent = ring.iter().enumerate().map(|(k, &at)| Vertex { at, origin: position(k) }).collect();
    let mut walked = Edge::ALL.into_iter().fold(lent, |ring: Vec<Vertex>, edge| walked_pass(&ring, edge, bounds));
    if walked.len() < 3 {
        walked.clear();
    }
    close(&mut walked);
    given_origins("cutter", &clip_ring(ring, bounds), &walked)
}

/// Appends the first vertex, with its origin, unless it equals the last.
fn close(ring: &mut Vec<Vertex>) {
    if let (Some(&first), Some(last)) = (ring.first(), ring.last()) {
        if first.at != last.at {
            ring.push(first);
        }
    }
}

/// Whether a pass leaves off the last vertex.
fn is_closed(ring: &[Vertex]) -> bool {
    ring.len() >= 2 && ring[0].at == ring[ring.len() - 1].at
}

fn coords(ring: &[Vertex]) -> Vec<Coord<f64>> {
    ring.iter().map(|vertex| vertex.at).collect()
}

pub fn cut_ring_of(ring: &[Vertex]) -> CutRing {
    ring.iter().map(|vertex| ((vertex.at.x, vertex.at.y), vertex.origin)).collect()
}

/// The Rust's own vertices with the origins of those that were walked, which have to be the same.
fn given_origins(name: &str, by_the_rust: &[Coord<f64>], walked: &[Vertex]) -> Vec<Vertex> {
    assert_same(name, &ring_of(&coords(walked)), &ring_of(by_the_rust));
    by_the_rust.iter().zip(walked).map(|(&at, vertex)| Vertex { at, ..*vertex }).collect()
}

fn assert_same(name: &str, walked: &Ring, by_the_rust: &Ring) {
    assert!(
        same_numbers(&flat(walked), &flat(by_the_rust)),
        "the {name} walked for origins gives {}, the Rust's own {}",
        shortened(walked),
        shortened(by_the_rust)
    );
}

#[cfg(test)]
mod tests {
    use super::*;
    use crate::convert::polygon_of;

    const BOUNDS: TileBounds = TileBounds { lng_min: 0.0, lat_min: 0.0, lng_max: 10.0, lat_max: 10.0 };

    #[test]
    fn a_kept_vertex_keeps_its_origin_and_a_crossing_has_the_line() {
        let ring = [(5., 5.), (15., 5.), (15., 8.), (5., 8.), (5., 5.)];
        assert_eq!(cut_ring(&coords_of(&ring), &BOUNDS).origins, [0, 65_533, 65_533, 3, 0]);
        let vertices = [(5., 5., 65_532), (15., 5., 7), (5., 8., 65_535)]
            .map(|(x, y, origin)| Vertex { at: Coord { x, y }, origin });
        let passed = cut_ring_of(&walked_pass(&vertices, Edge::Right, &BOUNDS));
        assert_eq!(passed.origins, [65_532, 65_533, 65_533, 65_535]);
    }

    #[test]
    fn holes_that_are_left_out_have_no_origins() {
        let (stays, outside) = (vec![(6., 6.), (12., 6.), (12., 7.), (6., 7.)], vec![(20., 6.), (22., 6.), (22., 7.)]);
        let rings = [vec![(5., 5.), (15., 5.), (15., 8.), (5., 8.)], outside, stays];
        let polygon = polygon_of(&rings);
        let cut = polygon_of(&[
            vec![(5., 5.), (10., 5.), (10., 8.), (5., 8.)],
            vec![(6., 6.), (10., 6.), (10., 7.), (6., 7.)],
        ]);
        let origins: Vec<_> = cut_rings(&polygon, &BOUNDS, &cut).into_iter().map(|cut| cut.origins).collect();
        assert_eq!(origins, [[0, 65_533, 65_533, 3, 0]; 2]);
    }

    #[test]
    #[should_panic(expected = "the polygon walked for origins gives")]
    fn another_cut_is_noticed() {
        let polygon = polygon_of(&[vec![(5., 5.), (15., 5.), (15., 8.), (5., 8.)]]);
        cut_rings(&polygon, &BOUNDS, &polygon);
    }

    #[test]
    #[should_panic(expected = "the Rust cut to another count of rings than the walk")]
    fn another_count_of_rings_is_noticed() {
        let hole = vec![(6., 6.), (7., 6.), (7., 7.)];
        let polygon = polygon_of(&[vec![(5., 5.), (15., 5.), (15., 8.), (5., 8.)], hole]);
        let cut = polygon_of(&[vec![(5., 5.), (10., 5.), (10., 8.), (5., 8.)]]);
        cut_rings(&polygon, &BOUNDS, &cut);
    }

    #[test]
    #[should_panic(expected = "the pass walked for origins gives [(1.0, -0.0)], the Rust's own [(1.0, 0.0)]")]
    fn another_vertex_is_noticed() {
        assert_same("pass", &vec![(1.0, -0.0)], &vec![(1.0, 0.0)]);
    }

    #[test]
    fn any_nan_is_the_same_vertex() {
        assert_same("pass", &vec![(1.0, -f64::NAN)], &vec![(1.0, f64::NAN)]);
    }
}
