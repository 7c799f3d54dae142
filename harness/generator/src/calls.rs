//! Ring calls and slice calls, with the slices lent to them filled with any bits but those of a zero.

use formats::calls::{RingCall, SliceCall, MOST_COORDINATES};
use formats::room::most_cut;
use formats::{closed_length, flat, Bounds, Part, Ring};

use crate::corners::with_corner_holes;
use crate::frames::{is_looked_at, is_vouched_for};
use crate::holes::{beyond_a_corner, with_holes};
use crate::numbers::any_bits;
use crate::rng::Rng;
use crate::scene::{lone_coordinate, Scene, Style};
use crate::tangles::tangle;

/// Keep the calls of a seed apart from its frames; each style has its own stream.
const RING_STREAM: u64 = 200;
const SLICE_STREAM: u64 = 300;

/// The most vertices of a tangle in a call: more than a frame has room for, and few enough to look at every pair of edges.
const LONGEST_TANGLE: usize = 700;

/// How many holes a polygon of a slice call has: mostly few, as more of them seldom leave it finite or inside.
const HOLES: [usize; 10] = [0, 0, 0, 0, 1, 1, 2, 3, 4, 5];

pub fn ring_call(style: Style, seed: u64, index: u64) -> RingCall {
    let rng = &mut Rng::new(seed, RING_STREAM + style as u64, index);
    let scene = Scene::new(style, rng);
    let long = is_long(rng);
    let ring = match rng.below(16) {
        _ if long => zigzag(around_the_limit(rng), rng),
        0 => beyond_a_corner(scene.bounds, rng),
        _ => scene.ring(rng),
    };
    let mut ring = flat(&ring);
    if rng.once_in(30) {
        ring.push(any_bits(rng));
    }
    let needed = if long && has_little_room(rng) { LITTLE } else { most_cut(ring.len() / 2) };
    RingCall {
        ring,
        bounds: scene.bounds,
        scratch: lent_numbers(2 * needed, rng),
        origin_scratch: lent_origins(needed, rng),
        out: lent_numbers(2 * needed, rng),
        out_origins: lent_origins(needed, rng),
    }
}

pub fn slice_call(style: Style, seed: u64, index: u64) -> SliceCall {
    let rng = &mut Rng::new(seed, SLICE_STREAM + style as u64, index);
    let scene = Scene::new(style, rng);
    let long = is_long(rng);
    let mut part = match rng.below(16) {
        _ if long && rng.once_in(2) => vec![sawtooth(scene.buffered_bounds(), rng)],
        _ if long => long_part(rng),
        0 => vec![beyond_a_corner(scene.buffered_bounds(), rng)],
        1 | 2 => with_holes(scene.buffered_bounds(), rng),
        3 | 4 if style == Style::Tangled => vec![tangle(LONGEST_TANGLE, rng)],
        3..=9 if style == Style::Corners => with_corner_holes(scene.buffered_bounds(), rng),
        _ => scene.part_with(rng.pick(&HOLES), rng),
    };
    if rng.once_in(50) {
        part.push(vec![lone_coordinate(rng)]);
    }
    if rng.once_in(100) {
        part.resize(rng.pick(&[63, 64, 65]), Vec::new());
    }
    let rooms = part.iter().map(|ring| most_cut(closed_length(ring)));
    let (largest, sum) =
        if long && has_little_room(rng) { (LITTLE, LITTLE) } else { (rooms.clone().max().unwrap_or(0), rooms.sum()) };
    let (coords, lengths) = slices(&part, rng);
    let vouched_for = is_vouched_for(style, rng);
    let looked_at = is_looked_at(style, rng);
    SliceCall {
        // The second reading looks at every pair of edges, which is too much for a long ring.
        assume_simple: long || vouched_for || (rng.once_in(2) && !looked_at),
        skip_boundary_fallback: vouched_for || rng.once_in(2),
        bounds: scene.bounds,
        buffer: scene.buffer,
        coords,
        lengths,
        scratch: lent_numbers(2 * largest, rng),
        origin_scratch: lent_origins(largest, rng),
        order: lent_positions(largest, rng),
        out: lent_numbers(2 * sum, rng),
        out_lengths: lent_positions(part.len(), rng),
        out_origins: lent_origins(sum, rng),
    }
}

/// A part's numbers and ring lengths, which now and then don't fit each other.
fn slices(part: &Part, rng: &mut Rng) -> (Vec<f64>, Vec<u32>) {
    let mut coords: Vec<f64> = part.iter().flat_map(|ring| flat(ring)).collect();
    let mut lengths: Vec<u32> = part.iter().map(|ring| ring.len() as u32).collect();
    match rng.below(60) {
        0 => lengths.clear(),
        1 => coords.push(0.0),
        2 => lengths[0] = rng.pick(&[0, 1, u32::MAX]),
        3 => lengths.push(u32::MAX),
        4 => coords.truncate(coords.len() / 2),
        // The next two fit in 32 bits: the sum of the lengths, and twice the sum.
        5 => {
            lengths[0] += 1;
            lengths.push(u32::MAX);
        }
        6 => lengths[0] += 1 << 31,
        _ => {}
    }
    (coords, lengths)
}

/// Whether a call is about the limit of 65,532 coordinates; such calls take long, so they are rare.
pub fn is_long(rng: &mut Rng) -> bool {
    rng.once_in(500)
}

/// The last is what the limit was before origins.
pub fn around_the_limit(rng: &mut Rng) -> usize {
    rng.pick(&[MOST_COORDINATES - 1, MOST_COORDINATES, MOST_COORDINATES, MOST_COORDINATES + 1, 65_536])
}

/// One to three rings that together have about as many coordinates as a call may have.
fn long_part(rng: &mut Rng) -> Part {
    let (coordinates, rings) = (around_the_limit(rng), 1 + rng.below(3));
    let each = coordinates / rings;
    let first = coordinates - each * (rings - 1);
    (0..rings).map(|k| zigzag(if k == 0 { first } else { each }, rng)).collect()
}

/// A ring of so many coordinates in and out of most bounds, closed or not.
pub fn zigzag(coordinates: usize, rng: &mut Rng) -> Ring {
    let mut ring: Ring = (0..coordinates).map(|k| ((k % 7) as f64, (k % 5) as f64)).collect();
    ring[coordinates - 1] = if rng.once_in(2) { ring[0] } else { (8.0, 8.0) };
    ring
}

/// A ring of as many coordinates as a call may have, in and out of the east bound at every vertex but one late in it, which is on
/// that bound: the cut has half as many vertices again, and there the first one that is repeated. It ends inside, not closed.
fn sawtooth([west, south, east, north]: Bounds, rng: &mut Rng) -> Ring {
    let vertices = MOST_COORDINATES - 1;
    let reach = (east - west) / 4.0;
    let step = (north - south) / (2 * vertices) as f64;
    let on_bound = 2 * rng.between(30_000, 32_000) as usize;
    let across = |k: usize| match k {
        _ if k == on_bound => east,
        _ if k.is_multiple_of(2) => east - reach,
        _ => east + reach,
    };
    (0..vertices).map(|k| (across(k), south + (k + vertices / 2) as f64 * step)).collect()
}

/// What half of the long calls are lent: all that they need takes much of a run's time.
const LITTLE: usize = 10;

fn has_little_room(rng: &mut Rng) -> bool {
    rng.once_in(2)
}

/// A length about the one needed: mostly enough, now and then many more.
fn lent_length(needed: usize, rng: &mut Rng) -> usize {
    match rng.below(45) {
        0 => needed.saturating_sub(1),
        1 => rng.below(needed + 1),
        2..=13 => needed,
        14..=16 => needed + 100 + rng.below(900),
        _ => needed + rng.below(6),
    }
}

pub fn lent_numbers(needed: usize, rng: &mut Rng) -> Vec<f64> {
    let length = lent_length(needed, rng);
    lent_exactly(length, rng)
}

/// None of them is a zero, so that one which is written shows, and so does a number that is left where a zero belongs.
pub fn lent_exactly(length: usize, rng: &mut Rng) -> Vec<f64> {
    lent(length, || other_than_zero(rng))
}

fn lent_positions(needed: usize, rng: &mut Rng) -> Vec<u32> {
    lent(lent_length(needed, rng), || 1 | rng.bits() as u32)
}

pub fn lent_origins(needed: usize, rng: &mut Rng) -> Vec<u16> {
    lent(lent_length(needed, rng), || 1 + rng.below(65_535) as u16)
}

fn other_than_zero(rng: &mut Rng) -> f64 {
    loop {
        let number = any_bits(rng);
        if number != 0.0 {
            return number;
        }
    }
}

/// A slice filled with drawn values; a long one repeats them, as drawing takes longer than a call.
fn lent<T: Clone>(length: usize, mut draw: impl FnMut() -> T) -> Vec<T> {
    let drawn: Vec<T> = (0..length.min(1_000)).map(|_| draw()).collect();
    drawn.into_iter().cycle().take(length).collect()
}
