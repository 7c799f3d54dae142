//! Frames that stand at a limit, from both sides.

use formats::frame::{Frame, LONGEST, MULTIPOLYGON, POLYGON, SHORTEST};

use crate::rng::Rng;
use crate::scene::LONGEST_RING;

pub fn at_a_limit(rng: &mut Rng) -> Vec<u8> {
    let bytes = match rng.below(6) {
        0 => part_counts(rng),
        1 => ring_counts(rng),
        2 => coordinate_counts(rng),
        3 => longest(rng),
        4 => shortest(rng),
        _ => nan_rings(rng),
    };
    // One in a few ends in the middle of its last count or number, or behind it.
    match rng.below(8) {
        0 => bytes[..bytes.len().saturating_sub(1)].to_vec(),
        1 => [bytes, vec![0]].concat(),
        _ => bytes,
    }
}

fn header(rng: &mut Rng, kind: u8) -> Vec<u8> {
    let flags = rng.pick(&[0, 1, 2, 3, 3, 4, 255]);
    Frame { kind, flags, bounds: [0.0, 0.0, 10.0, 10.0], buffer: 0.0, parts: Vec::new() }.encode()[..42].to_vec()
}

fn any_kind(rng: &mut Rng) -> u8 {
    rng.pick(&[POLYGON, MULTIPOLYGON, POLYGON, MULTIPOLYGON, POLYGON, MULTIPOLYGON, 0, 2, 4, 5, 7])
}

fn put_count(bytes: &mut Vec<u8>, count: usize) {
    bytes.extend((count as u16).to_le_bytes());
}

/// Parts of one empty ring each, as many as said or fewer.
fn part_counts(rng: &mut Rng) -> Vec<u8> {
    let kind = any_kind(rng);
    let mut bytes = header(rng, kind);
    let parts = rng.pick(&[0, 1, 2, 255, 256, 257, 258, 65_535]);
    put_count(&mut bytes, parts);
    for _ in 0..parts.min(rng.pick(&[0, 255, 256, 257])) {
        put_count(&mut bytes, 1);
        put_count(&mut bytes, 0);
    }
    bytes
}

/// One part of as many empty rings as said or fewer.
fn ring_counts(rng: &mut Rng) -> Vec<u8> {
    let mut bytes = header(rng, POLYGON);
    put_count(&mut bytes, 1);
    let rings = rng.pick(&[0, 1, 63, 64, 65, 256, 65_535]);
    put_count(&mut bytes, rings);
    for _ in 0..rings.min(rng.pick(&[0, 63, 64, 65])) {
        put_count(&mut bytes, 0);
    }
    bytes
}

/// One ring with as many coordinates as said, or as many as fit, or none.
fn coordinate_counts(rng: &mut Rng) -> Vec<u8> {
    let mut bytes = header(rng, MULTIPOLYGON);
    put_count(&mut bytes, 1);
    put_count(&mut bytes, 1);
    let coordinates =
        rng.pick(&[0, 1, LONGEST_RING - 1, LONGEST_RING, LONGEST_RING + 1, 4_095, 4_096, 4_097, 5_000, 65_535]);
    put_count(&mut bytes, coordinates);
    let numbers = 2 * coordinates.min(rng.pick(&[0, 1, LONGEST_RING, LONGEST_RING + 1]));
    bytes.extend((0..numbers).flat_map(|k| (k as f64 / 20.0).to_le_bytes()));
    bytes
}

/// Frames of just about 5,120 bytes: one ring, and empty ones that fill the frame up. Seven coordinates less leave room for
/// over 50 of them, not too many for a part.
fn longest(rng: &mut Rng) -> Vec<u8> {
    let mut bytes = header(rng, MULTIPOLYGON);
    let aim = LONGEST + 2 - 2 * rng.below(4);
    let coordinates = LONGEST_RING - 1 - rng.below(7);
    let spare = (aim - SHORTEST - 4 - 16 * coordinates) / 2;
    put_count(&mut bytes, 1);
    put_count(&mut bytes, 1 + spare);
    put_count(&mut bytes, coordinates);
    bytes.extend((0..2 * coordinates).flat_map(|k| (k as f64 / 30.0).to_le_bytes()));
    (0..spare).for_each(|_| put_count(&mut bytes, 0));
    bytes
}

/// Frames of just about 44 bytes, and of none.
fn shortest(rng: &mut Rng) -> Vec<u8> {
    let kind = any_kind(rng);
    let mut bytes = header(rng, kind);
    let parts = rng.pick(&[0, 0, 1]);
    put_count(&mut bytes, parts);
    bytes.truncate(rng.pick(&[0, 1, 2, 42, 43, 44, 44, 44]));
    bytes
}

/// Single NaN coordinates, which close to two: the most room a frame can ask for.
fn nan_rings(rng: &mut Rng) -> Vec<u8> {
    let rings = rng.between(1, 64) as usize;
    let parts = vec![vec![vec![(f64::NAN, 0.0)]; rings]; 1 + rng.below(256 / rings).min(3)];
    Frame { kind: MULTIPOLYGON, flags: 0, bounds: [0.0, 0.0, 10.0, 10.0], buffer: 0.0, parts }.encode()
}
