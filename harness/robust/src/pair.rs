//! A pair of edges, the float test of document 01 and the grid of document 02's Point 5, both written anew.

/// a1.x, a1.y, a2.x, a2.y, b1.x, b1.y, b2.x, b2.y: one edge from a1 to a2, the other from b1 to b2.
#[derive(Clone, Copy, Debug, PartialEq)]
pub struct Pair(pub [f64; 8]);

pub type Coord = (f64, f64);

/// An edge.
pub type Edge = [Coord; 2];

/// A step of the grid is one over this, 2^48.
pub const STEPS: f64 = (1u64 << 48) as f64;

/// The largest magnitude on the grid.
pub const HIGHEST: f64 = 256.0;

impl Pair {
    pub fn new([a1, a2]: Edge, [b1, b2]: Edge) -> Pair {
        Pair([a1.0, a1.1, a2.0, a2.1, b1.0, b1.1, b2.0, b2.1])
    }

    pub fn edges(&self) -> [Edge; 2] {
        let [a, b, c, d, e, f, g, h] = self.0;
        [[(a, b), (c, d)], [(e, f), (g, h)]]
    }

    pub fn is_on_grid(&self) -> bool {
        self.0.iter().all(|&number| is_on_grid(number))
    }

    pub fn is_finite(&self) -> bool {
        self.0.iter().all(|number| number.is_finite())
    }

    /// Document 01's test, in the source's order of operations.
    pub fn crosses_in_floats(&self) -> bool {
        let [a, b] = self.edges();
        !are_apart(a, b) && !is_degenerate(a) && !is_degenerate(b) && intersect_properly(a, b)
    }
}

pub fn is_on_grid(number: f64) -> bool {
    let steps = number * STEPS;
    number.abs() <= HIGHEST && steps == steps.trunc()
}

/// Whether the closed boxes of two edges don't meet.
pub fn are_apart([a1, a2]: Edge, [b1, b2]: Edge) -> bool {
    let apart = |a1: f64, a2: f64, b1: f64, b2: f64| a1.max(a2) < b1.min(b2) || b1.max(b2) < a1.min(a2);
    apart(a1.0, a2.0, b1.0, b2.0) || apart(a1.1, a2.1, b1.1, b2.1)
}

fn is_degenerate([start, end]: Edge) -> bool {
    (start.0 - end.0).abs() < 1e-10 && (start.1 - end.1).abs() < 1e-10
}

fn intersect_properly([a1, a2]: Edge, [b1, b2]: Edge) -> bool {
    let (d1, d2) = (cross_product(b1, b2, a1), cross_product(b1, b2, a2));
    let (d3, d4) = (cross_product(a1, a2, b1), cross_product(a1, a2, b2));
    let are_opposite = |d: f64, e: f64| (d > 0.0 && e < 0.0) || (d < 0.0 && e > 0.0);
    are_opposite(d1, d2) && are_opposite(d3, d4)
}

fn cross_product(a: Coord, b: Coord, c: Coord) -> f64 {
    (b.0 - a.0) * (c.1 - a.1) - (b.1 - a.1) * (c.0 - a.0)
}
