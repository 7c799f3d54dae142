//! What the traced copy of the cutter tells: in each step the end and then the start, worked out anew.

use geo::Coord;
use tylertoo::tile::TileBounds;
use tylertoo_pass::verdicts::take_judged;
use tylertoo_pass::{traced, unchanged};

const BOUNDS: TileBounds = TileBounds { lng_min: 0.0, lat_min: 0.0, lng_max: 10.0, lat_max: 10.0 };

fn ring(coords: &[(f64, f64)]) -> Vec<Coord<f64>> {
    coords.iter().map(|&(x, y)| Coord { x, y }).collect()
}

/// The places in the ring of the vertices that a pass judges.
fn judged(ring: &[Coord<f64>], edge: usize) -> Vec<usize> {
    take_judged();
    traced::opened::clip_ring_against_edge(ring, edge, &BOUNDS);
    let place = |vertex| ring.iter().position(|standing| std::ptr::eq(standing, vertex)).expect("it is of the ring");
    take_judged().into_iter().map(place).collect()
}

#[test]
fn every_vertex_left_is_judged_as_an_end_and_as_a_start() {
    let open = ring(&[(5.0, 5.0), (15.0, 5.0), (5.0, -5.0)]);
    let closed = ring(&[(5.0, 5.0), (15.0, 5.0), (5.0, -5.0), (5.0, 5.0)]);
    for edge in 0..4 {
        assert_eq!(judged(&open, edge), [0, 2, 1, 0, 2, 1]);
        assert_eq!(judged(&closed, edge), [0, 2, 1, 0, 2, 1]);
        assert_eq!(judged(&open[..1], edge), [0, 0]);
        assert_eq!(judged(&[], edge), []);
    }
}

#[test]
fn the_unchanged_copy_tells_nothing() {
    take_judged();
    let open = ring(&[(5.0, 5.0), (15.0, 5.0), (5.0, -5.0)]);
    let cut = unchanged::opened::clip_ring_against_edge(&open, 1, &BOUNDS);
    assert_eq!(cut.len(), 4);
    assert!(take_judged().is_empty());
}
