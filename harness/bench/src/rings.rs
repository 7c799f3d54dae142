//! The ring call against the Rust's `clip_ring`. The Rust has no origins, which the port's time is with. It clears nothing either; the
//! port clears the scratch slices and the outputs past the cut ring, so the cut and the clearing are timed by themselves too.

use std::hint::black_box;

use formats::calls::{RingAfter, MOST_COORDINATES};
use formats::room::most_cut;
use formats::same_numbers;
use geo::Coord;
use port::{calls, probe};
use tylertoo::sutherland_hodgman::opened::clip_ring;
use tylertoo::tile::TileBounds;

use crate::outlines::{half_outside, inside, zigzag, Outline, BOUNDS};
use crate::table::{whole, Clearing, Row};
use crate::timing::medians_in_step;

pub const OUTLINES: [(&str, Outline); 3] = [("inside", inside), ("half outside", half_outside), ("zigzag", zigzag)];

pub fn measure() {
    for vertices in [64, 1_024, MOST_COORDINATES] {
        for (name, outline) in OUTLINES {
            row(vertices, name, &outline(vertices)).print();
        }
    }
}

fn row(vertices: usize, name: &str, ring: &[Coord<f64>]) -> Row {
    let (mut rust, mut call) = (Sides::new(ring), Sides::new(ring));
    let numbers = numbers_of(ring);
    let (mut lent, mut cleared) = (lent_for(vertices), lent_for(vertices));
    let cut = probe::clip_ring(&numbers, &BOUNDS, calls::lent_to_ring(&mut lent));
    let times = medians_in_step(&mut [
        &mut || rust.rust(),
        &mut || {
            black_box(probe::clip_ring(black_box(&numbers), &BOUNDS, calls::lent_to_ring(&mut lent)));
        },
        &mut || {
            black_box(&mut cleared.scratch[..]).fill(0.0);
            black_box(&mut cleared.origin_scratch[..]).fill(0);
            black_box(&mut cleared.out[2 * cut..]).fill(0.0);
            black_box(&mut cleared.out_origins[cut..]).fill(0);
        },
        &mut || call.port(),
    ]);
    Row {
        workload: "ring call",
        size: format!("{} vertices", whole(vertices as f64)),
        case: name.to_string(),
        rust: times[0],
        port: times[1],
        clearing: Some(Clearing { alone: times[2], whole_call: times[3] }),
    }
}

/// Both sides with the ring, and what the port's whole call writes to.
pub struct Sides {
    ring: Vec<Coord<f64>>,
    numbers: Vec<f64>,
    bounds: TileBounds,
    lent: RingAfter,
}

impl Sides {
    /// Both have cut the ring once, to the same numbers.
    pub fn new(ring: &[Coord<f64>]) -> Sides {
        let mut sides = Sides {
            ring: ring.to_vec(),
            numbers: numbers_of(ring),
            bounds: TileBounds::new(BOUNDS[0], BOUNDS[1], BOUNDS[2], BOUNDS[3]),
            lent: lent_for(ring.len()),
        };
        let cut = numbers_of(&sides.cut_by_rust());
        let coordinates = sides.cut_by_port();
        assert_eq!(coordinates, cut.len() as i64 / 2);
        let same = same_numbers(&sides.lent.out[..cut.len()], &cut);
        assert!(same, "{} vertices are cut to other numbers", ring.len());
        sides
    }

    pub fn rust(&mut self) {
        black_box(self.cut_by_rust());
    }

    pub fn port(&mut self) {
        black_box(self.cut_by_port());
    }

    fn cut_by_rust(&self) -> Vec<Coord<f64>> {
        clip_ring(black_box(&self.ring), &self.bounds)
    }

    fn cut_by_port(&mut self) -> i64 {
        let Sides { numbers, lent, .. } = self;
        calls::ring(black_box(numbers), &BOUNDS, calls::lent_to_ring(lent))
    }
}

fn numbers_of(ring: &[Coord<f64>]) -> Vec<f64> {
    ring.iter().flat_map(|c| [c.x, c.y]).collect()
}

/// The slices of one call to write to, exactly as long as a ring of so many vertices asks.
fn lent_for(vertices: usize) -> RingAfter {
    let room = most_cut(vertices);
    RingAfter {
        answer: 0,
        scratch: vec![0.0; 2 * room],
        origin_scratch: vec![0; room],
        out: vec![0.0; 2 * room],
        out_origins: vec![0; room],
    }
}
