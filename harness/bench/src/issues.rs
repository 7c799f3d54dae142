//! The issue check against the Rust's `has_structural_issues`, on rings that have none: every pair of edges that may meet is looked at.

use std::hint::black_box;

use geo::{Coord, LineString, Polygon};
use port::probe;
use tylertoo::clip::opened::has_structural_issues;

use crate::outlines::{inside, rough, Outline};
use crate::table::{whole, Row};
use crate::timing::medians;

pub const OUTLINES: [(&str, Outline); 2] = [("smooth", inside), ("rough", rough)];

pub fn measure() {
    for edges in [32, 64, 317, 1_024, 4_096, 65_536] {
        for (name, outline) in OUTLINES {
            row(edges, name, &outline(edges)).print();
        }
    }
}

fn row(edges: usize, name: &str, ring: &[Coord<f64>]) -> Row {
    let (mut rust, mut port) = (Sides::new(ring), Sides::new(ring));
    assert!(!has_structural_issues(&rust.polygon, false), "a ring of {edges} edges, {name}, has an issue");
    assert_eq!(port.found(), 0);
    let times = medians(&mut [&mut || rust.rust(), &mut || port.port()]);
    Row {
        workload: "issue check",
        size: format!("{} edges", whole(edges as f64)),
        case: name.to_string(),
        rust: times[0],
        port: times[1],
        clearing: None,
    }
}

/// Both sides with the ring, closed, and the work slices that the port's check is lent.
pub struct Sides {
    polygon: Polygon<f64>,
    numbers: Vec<f64>,
    work: Vec<f64>,
    order: Vec<u32>,
}

impl Sides {
    pub fn new(ring: &[Coord<f64>]) -> Sides {
        let polygon = Polygon::new(LineString::new(ring.to_vec()), Vec::new());
        let closed = &polygon.exterior().0;
        let numbers: Vec<f64> = closed.iter().flat_map(|c| [c.x, c.y]).collect();
        let (work, order) = (vec![0.0; numbers.len()], vec![0; closed.len()]);
        Sides { polygon, numbers, work, order }
    }

    pub fn rust(&mut self) {
        black_box(has_structural_issues(black_box(&self.polygon), false));
    }

    pub fn port(&mut self) {
        black_box(self.found());
    }

    /// What the port finds, as its probe answers it.
    pub fn found(&mut self) -> u64 {
        probe::find_issue(black_box(&self.numbers), false, &mut self.work, &mut self.order)
    }
}
