//! One pass: the vertices from the unchanged Rust, the count of verdicts from its traced copy, the origins from a walk. Where these
//! cut differently the harness stops: then the copy is not the Rust, and its verdicts would not count. And one cut of a pass.

use formats::cuts::Cut;
use formats::passes::{PassCall, Passed};
use formats::shown::shortened;
use formats::{flat, pairs, same_numbers};
use geo::Coord;
use tylertoo_pass::verdicts::take_judged;
use tylertoo_pass::{traced, unchanged};

use crate::convert::{bounds_of, coords_of, ring_of};
use crate::origins::{cut_ring_of, walked_pass, Vertex};

/// None where a slice is too short.
pub fn pass(call: &PassCall) -> Option<Passed> {
    if !call.has_room() {
        return None;
    }
    let (ring, edge, bounds) = (coords_of(&pairs(&call.ring)), call.edge as usize, bounds_of(call.bounds));
    let numbers = numbers_of(&unchanged::opened::clip_ring_against_edge(&ring, edge, &bounds));
    take_judged();
    let traced = numbers_of(&traced::opened::clip_ring_against_edge(&ring, edge, &bounds));
    let judged = take_judged();
    assert_same(&traced, &numbers);
    let vertices: Vec<Vertex> = ring.iter().zip(&call.origins).map(|(&at, &origin)| Vertex { at, origin }).collect();
    let cut = cut_ring_of(&walked_pass(&vertices, call.edge, &bounds));
    Some(Passed { cut, verdicts: verdicts_with_last_kept(&judged) })
}

/// Where the Rust's `intersect` cuts an edge.
pub fn crossing(cut: &Cut) -> formats::Coord {
    let [start, end] = [cut.start, cut.end].map(|(x, y)| Coord { x, y });
    let Coord { x, y } = unchanged::opened::intersect(&start, &end, cut.edge as usize, &bounds_of(cut.bounds()));
    (x, y)
}

fn numbers_of(coords: &[Coord<f64>]) -> Vec<f64> {
    flat(&ring_of(coords))
}

fn assert_same(traced: &[f64], unchanged: &[f64]) {
    assert!(
        same_numbers(traced, unchanged),
        "the traced copy cuts to {}, the Rust itself to {}",
        shortened(traced),
        shortened(unchanged)
    );
}

/// How many verdicts are worked out where the last one is kept from step to step. The Rust works out two in each step, on the
/// end and then on the start. The start of every step but the first is the vertex that was the end of the step before, and its
/// verdict is at hand.
fn verdicts_with_last_kept(judged: &[*const Coord<f64>]) -> usize {
    let mut kept = None;
    let mut verdicts = 0;
    for step in judged.chunks(2) {
        let &[end, start] = step else {
            panic!("the Rust judged {} vertices, which are not two in each step", judged.len());
        };
        verdicts += if kept == Some(start) { 1 } else { 2 };
        kept = Some(end);
    }
    verdicts
}

#[cfg(test)]
mod tests {
    use super::*;

    #[test]
    fn a_verdict_is_kept_for_the_next_start_alone() {
        let ring = coords_of(&[(0.0, 0.0); 3]);
        let counted = |places: &[usize]| {
            verdicts_with_last_kept(&places.iter().map(|&place| &raw const ring[place]).collect::<Vec<_>>())
        };
        assert_eq!(counted(&[]), 0);
        assert_eq!(counted(&[0, 0]), 2);
        assert_eq!(counted(&[0, 2, 1, 0, 2, 1]), 4);
        assert_eq!(counted(&[0, 2, 1, 2, 2, 1]), 5);
    }

    #[test]
    #[should_panic(expected = "not two in each step")]
    fn a_verdict_too_many_is_noticed() {
        let vertex = Coord { x: 0.0, y: 0.0 };
        verdicts_with_last_kept(&[&raw const vertex; 3]);
    }

    #[test]
    #[should_panic(expected = "the traced copy cuts to [1.0, -0.0], the Rust itself to [1.0, 0.0]")]
    fn another_cut_of_the_copy_is_noticed() {
        assert_same(&[1.0, -0.0], &[1.0, 0.0]);
    }

    #[test]
    fn any_nan_is_the_same_cut() {
        assert_same(&[1.0, -f64::NAN], &[1.0, f64::NAN]);
    }
}
