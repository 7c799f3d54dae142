//! Frames to build part by part, with parts that break a limit, and the bytes lent for them.

use formats::building::{Building, Built, Limits};
use formats::frame::{LONGEST, MULTIPOLYGON, POLYGON, SHORTEST};

use crate::frames::whole;
use crate::rng::Rng;

#[derive(Clone, Copy, Debug, PartialEq, Eq)]
pub enum BuildingKind {
    /// The parts of a frame.
    Whole,
    /// The same, and parts that break a limit among them.
    Faulty,
    /// As many parts, rings or bytes as there may be, or one more or less.
    Limits,
}

impl BuildingKind {
    pub const ALL: [BuildingKind; 3] = [BuildingKind::Whole, BuildingKind::Faulty, BuildingKind::Limits];

    pub fn name(self) -> &'static str {
        match self {
            BuildingKind::Whole => "whole",
            BuildingKind::Faulty => "faulty",
            BuildingKind::Limits => "limits",
        }
    }
}

/// Keeps these frames of a seed apart from its others.
const STREAM: u64 = 230;

pub fn building(kind: BuildingKind, seed: u64, index: u64) -> Building {
    let rng = &mut Rng::new(seed, STREAM + kind as u64, index);
    let mut building = Building::of(&whole(rng), LONGEST);
    match kind {
        BuildingKind::Whole => {}
        BuildingKind::Faulty => {
            for _ in 0..1 + rng.below(3) {
                building.parts.insert(rng.below(building.parts.len() + 1), faulty_part(rng));
            }
        }
        BuildingKind::Limits => {
            (building.kind, building.parts) = at_a_limit(rng);
        }
    }
    building.room = room(&building, rng);
    building
}

type Numbers = Vec<Vec<f64>>;

/// One ring of so many numbers.
fn ring(numbers: usize) -> Numbers {
    vec![(0..numbers).map(|k| k as f64 / 4.0).collect()]
}

fn empty_rings(rings: usize) -> Numbers {
    vec![Vec::new(); rings]
}

/// A part that breaks a limit, or two, of which one comes first; one of 63 or 64 rings, or of so many bytes, may break none.
fn faulty_part(rng: &mut Rng) -> Numbers {
    let (odd, full) = (1 + 2 * rng.below(6), rng.pick(&[63, 64, 65]));
    let (too_large, too_many) = (rng.pick(&[632, 634, 5_000, 8_192]), 8_194 + rng.below(3));
    match rng.below(8) {
        0 => Vec::new(),
        1 => empty_rings(full),
        2 => [ring(4), ring(odd)].concat(),
        3 => ring(too_many),
        4 => ring(too_large),
        5 => [empty_rings(full), ring(odd)].concat(),
        6 => [ring(too_large), ring(odd)].concat(),
        _ => [ring(odd), ring(too_many)].concat(),
    }
}

fn at_a_limit(rng: &mut Rng) -> (u8, Vec<Numbers>) {
    let few = rng.below(4);
    match rng.below(4) {
        0 => (MULTIPOLYGON, vec![ring(0); 254 + few]),
        1 => (rng.pick(&[POLYGON, MULTIPOLYGON]), vec![empty_rings(62 + few)]),
        2 => (POLYGON, vec![ring(2 * rng.below(4)); few]),
        // 44 and 2 bytes, 2 for each ring and 16 for each coordinate: 5,120 where there are as many empty rings as are left room for.
        _ => {
            let coordinates = 310 + rng.below(8);
            let empty = ((LONGEST - SHORTEST - 4 - 16 * coordinates) / 2 + 1).saturating_sub(few);
            let (one, rest) = (ring(2 * coordinates), empty_rings(empty));
            let parts = if rng.once_in(2) { vec![[one, rest].concat()] } else { vec![one, rest] };
            (MULTIPOLYGON, parts)
        }
    }
}

/// Exactly what it needs, a byte less or some more, as much as any frame needs, or hardly any.
fn room(building: &Building, rng: &mut Rng) -> usize {
    let Built { frame, .. } = building.built(Limits::RIGHT);
    let exact = frame.map_or(SHORTEST, |frame| frame.len());
    match rng.below(8) {
        0 => exact,
        1 => exact - 1,
        2 => exact + 1 + rng.below(20),
        3 => rng.below(exact),
        4 => rng.pick(&[0, 43, 44, 45, 46, 48]),
        5 => rng.pick(&[LONGEST - 2, LONGEST - 1, LONGEST + 1, 6_000]),
        _ => LONGEST,
    }
}
