//! Rings with two edges nearly or exactly of one line that the rounded test takes for crossing: on the grid of document 02's point 5
//! the verdict hangs on whether they share a point, off it on the rounded test.

use formats::{Bounds, Coord, Ring};

use crate::collinear::arc;
use crate::meetings::{cross_properly, cross_rounded, Pair};
use crate::pairs::{draw, mirrored, PairKind};
use crate::rng::Rng;

/// Of the readings of document 02's point 5: in no point, in a touch, in an overlap, and in none though an end is on the other's line.
const SEEDS: [Pair; 4] = [
    [(47.9, 73.0), (22.7, 60.4), (73.1, 85.6), (-81.7, 8.2)],
    [(112.3, 14.8), (12.7, 48.0), (61.6, 31.7), (21.1, 45.2)],
    [(-25.1, 62.2), (-254.9, -91.0), (48.4, 111.2), (-113.9, 3.0)],
    [(18.6, 79.2), (-37.2, 42.0), (88.8, 126.0), (-9.0, 60.8)],
];

/// How often a ring is drawn at most, and how often a pair.
const TRIES: usize = 6;
const PAIR_TRIES: usize = 200;

/// A ring whose verdict hangs on such edges alone, where one is soon found. Not closed.
pub fn shallow(bounds: Bounds, rng: &mut Rng) -> Ring {
    if bounds[2] <= NARROW && rng.once_in(2) {
        return joined(looked_for_when_cut(bounds[2], rng), bounds, rng);
    }
    let mut ring = joined(any_pair(rng), bounds, rng);
    for _ in 1..TRIES {
        if hangs_on_shallow(&ring) {
            break;
        }
        ring = joined(any_pair(rng), bounds, rng);
    }
    if rng.once_in(4) {
        move_off_grid(&mut ring, rng);
    }
    ring
}

fn any_pair(rng: &mut Rng) -> Pair {
    if rng.once_in(4) {
        mirrored(rng.pick(&SEEDS), rng)
    } else {
        draw(PairKind::LookedFor, rng)
    }
}

/// Bounds that are no wider cut many edges.
const NARROW: f64 = 101.0;

/// A pair that the rounded test takes for crossing only once it is cut at the east bound, which moves an edge by a rounding. The last
/// one tried, where none is found.
fn looked_for_when_cut(east: f64, rng: &mut Rng) -> Pair {
    let mut pair = draw(PairKind::AroundZero, rng);
    for _ in 1..PAIR_TRIES {
        let cut = cut_at_east(&pair, east);
        if !cross_rounded(&pair) && cross_rounded(&cut) && cross_properly(&cut) != Some(true) {
            break;
        }
        pair = draw(PairKind::AroundZero, rng);
    }
    pair
}

/// Each edge that passes the east bound up to there.
fn cut_at_east(&[a, b, c, d]: &Pair, east: f64) -> Pair {
    let cut = |start: Coord, end: Coord| {
        let crossing = (east, start.1 + (east - start.0) / (end.0 - start.0) * (end.1 - start.1));
        match (start.0 <= east, end.0 <= east) {
            (true, false) => (start, crossing),
            (false, true) => (crossing, end),
            _ => (start, end),
        }
    };
    let ((a, b), (c, d)) = (cut(a, b), cut(c, d));
    [a, b, c, d]
}

/// Whether some pair of edges crosses by the rounded test, and none crosses properly.
fn hangs_on_shallow(ring: &[Coord]) -> bool {
    let edge = |k: usize| (ring[k], ring[(k + 1) % ring.len()]);
    let pairs = (0..ring.len()).flat_map(|k| (0..k).map(move |j| (j, k)));
    let mut crossing = pairs
        .map(|(j, k)| [edge(j).0, edge(j).1, edge(k).0, edge(k).1])
        .filter(cross_rounded)
        .map(|pair| cross_properly(&pair) == Some(false))
        .peekable();
    crossing.peek().is_some() && crossing.all(|shallow| shallow)
}

/// The two edges and a way from each to the other: straight, an arc on either side, or a tip that just reaches over the east bound, which
/// a cut takes off without leaving an edge along the bound.
fn joined([a, b, c, d]: Pair, bounds: Bounds, rng: &mut Rng) -> Ring {
    // With 14 vertices on each arc a ring has 32 edges, the most that are scanned.
    let vertices = rng.pick(&[0, 0, 1, 1, 2, 5, 14, 15, 30]);
    let rounded = !rng.once_in(4);
    let mut joining = |from: Coord, to: Coord| -> Ring {
        let arc = arc(from, to, rng.pick(&[-1.0, -0.5, -0.2, 0.2, 0.5, 1.0]), vertices);
        arc.into_iter().map(|(x, y)| if rounded { (in_eighths(x), in_eighths(y)) } else { (x, y) }).collect()
    };
    let (out, back) = (joining(b, c), joining(d, a));
    if rng.once_in(4) {
        return [vec![a, b], out, vec![c, d, tip(bounds, rng)]].concat();
    }
    let mut ring = [vec![a, b], out, vec![c, d], back].concat();
    let start = rng.below(ring.len());
    ring.rotate_left(start);
    ring
}

/// Rounded to a number that is on the grid, unless it is too large.
fn in_eighths(number: f64) -> f64 {
    (8.0 * number).round() / 8.0
}

fn tip([_, south, east, north]: Bounds, rng: &mut Rng) -> Coord {
    let y = south + rng.fraction() * (north - south);
    (east + 1.0 / (1u64 << 36) as f64, in_eighths(y))
}

/// One number of the ring half a step on, where it has the digits for it, or a third, or just beyond 256.
fn move_off_grid(ring: &mut Ring, rng: &mut Rng) {
    let k = rng.below(ring.len());
    let number = if rng.once_in(2) { &mut ring[k].0 } else { &mut ring[k].1 };
    *number = match rng.below(4) {
        0 => number.signum() / 3.0,
        1 => number.signum() * 256.0_f64.next_up(),
        _ => *number + 1.0 / (1u64 << 49) as f64,
    };
}
