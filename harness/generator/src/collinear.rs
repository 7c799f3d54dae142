//! Rings with edges of one slanted line, off it by the rounding of their coordinates only: whether two such edges cross by
//! the rounded test says nothing about whether their boxes meet.

use formats::{Coord, Ring};

use crate::rng::Rng;

/// Edges from a to b and from c to d that the rounded test takes for crossing. The boxes of the first four pairs are apart,
/// those of the others touch in one x: few pairs of decimals do either, so these were looked for.
const PAIRS: [[Coord; 4]; 8] = [
    [(-1.7, -6.0), (-0.5, 8.4), (1.4, 31.2), (-0.2, 12.0)],
    [(-0.2, 0.4), (1.8, 3.9), (9.0, 16.5), (2.2, 4.6)],
    [(1.4, 5.7), (2.9, 9.0), (5.4, 14.5), (3.9, 11.2)],
    [(-5.7, -3.2), (1.3, -0.2), (14.6, 5.5), (3.4, 0.7)],
    [(-2.1, -4.9), (2.1, 2.3), (10.5, 16.7), (2.1, 2.2999999999999985)],
    [(2.9, 2.5), (3.7, 3.2), (12.5, 10.9), (3.7, 3.1999999999999993)],
    [(-4.3, -4.7), (1.1, -1.1), (11.9, 6.1), (1.1, -1.1000000000000005)],
    [(3.6, 1.7), (6.9, 3.8), (28.9, 17.8), (6.9, 3.7999999999999985)],
];

/// One run up a slanted line to its middle and one down to it, joined by an arc on either side of the line.
pub fn collinear(rng: &mut Rng) -> Ring {
    let (up, down) = if rng.once_in(2) { looked_for(rng) } else { decimals(rng) };
    // With 14 vertices on each arc and runs of one step a ring has 32 edges, the most that are scanned.
    let vertices = rng.pick(&[1, 1, 2, 5, 14, 15, 30]);
    let bulge = rng.pick(&[0.2, 0.5, 1.0]);
    let ends = |run: &[Coord]| (run[0], run[run.len() - 1]);
    let ((low, low_middle), (high, high_middle)) = (ends(&up), ends(&down));
    let mut ring = [down, arc(high_middle, low, bulge, vertices), up, arc(low_middle, high, bulge, vertices)].concat();
    let start = rng.below(ring.len());
    ring.rotate_left(start);
    turned(ring, rng)
}

/// Runs of one step each.
fn looked_for(rng: &mut Rng) -> (Vec<Coord>, Vec<Coord>) {
    let [a, b, c, d] = rng.pick(&PAIRS);
    (vec![a, b], vec![c, d])
}

/// Runs of a few steps along a line of tenths; they may share the vertex in the middle.
fn decimals(rng: &mut Rng) -> (Vec<Coord>, Vec<Coord>) {
    let (x, y) = (rng.between(-100, 100), rng.between(-100, 100));
    let (dx, dy) = (rng.between(1, 30), rng.between(1, 30));
    let at = |place: i64| ((x + place * dx) as f64 / 10.0, (y + place * dy) as f64 / 10.0);
    let (start, gap) = (rng.between(-40, 0), rng.between(0, 3));
    let mut place = start;
    let mut run = |gap: i64| -> Vec<Coord> {
        place += gap;
        let mut run = vec![at(place)];
        for _ in 0..rng.between(1, 5) {
            place += rng.between(1, 9);
            run.push(at(place));
        }
        run
    };
    let (up, mut down) = (run(0), run(gap));
    down.reverse();
    (up, down)
}

/// Vertices on the way between two others, bent away to the left of it.
pub fn arc(from: Coord, to: Coord, bulge: f64, vertices: usize) -> Vec<Coord> {
    let (dx, dy) = (to.0 - from.0, to.1 - from.1);
    (1..=vertices)
        .map(|k| {
            let way = k as f64 / (vertices + 1) as f64;
            let off = 4.0 * bulge * way * (1.0 - way);
            (from.0 + way * dx - off * dy, from.1 + way * dy + off * dx)
        })
        .collect()
}

/// Mirrored, turned and stretched by a power of two, none of which changes what is rounded.
fn turned(ring: Ring, rng: &mut Rng) -> Ring {
    let (swapped, mirrored_x, mirrored_y) = (rng.once_in(2), rng.once_in(2), rng.once_in(2));
    let stretch = rng.pick(&[0.25, 0.5, 1.0, 1.0, 2.0, 4.0]);
    let flipped = |value: f64, mirrored: bool| if mirrored { -stretch * value } else { stretch * value };
    ring.into_iter()
        .map(|(x, y)| {
            let (x, y) = if swapped { (y, x) } else { (x, y) };
            (flipped(x, mirrored_x), flipped(y, mirrored_y))
        })
        .collect()
}
