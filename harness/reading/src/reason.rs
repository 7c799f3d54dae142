//! Why an overlay is wanted, and the positions that tell where: document 02, point 1.

use crate::issues::Issue;
use crate::{Mistake, Reading, Vertex};

/// The number of a reason and its two positions, zero where they don't apply.
#[derive(Clone, Copy, Debug)]
pub struct Reason {
    pub number: u8,
    pub first: usize,
    pub second: usize,
}

impl Reason {
    /// Whether it was found after the exterior was cut.
    pub fn is_of_cut(&self) -> bool {
        !matches!(self.number, 1 | 7 | 8)
    }
}

impl Reading {
    /// Reasons 1, 7 and 8: an issue of the input exterior, numbered in that ring, closed.
    pub fn input_reason(&self, ring: &[Vertex], issue: Issue) -> Reason {
        self.issue_reason(ring, issue, [1, 7, 8])
    }

    /// Reasons 2, 9 and 10: an issue of the cut exterior, numbered in that ring as the polygon holds it.
    pub fn cut_reason(&self, input: &[Vertex], cut: &[Vertex], issue: Issue) -> Reason {
        let numbers = if self.makes(Mistake::SwapsCutReasons) { [2, 10, 9] } else { [2, 9, 10] };
        let mut reason = self.issue_reason(cut, issue, numbers);
        if self.makes(Mistake::CutNumberedInInput) {
            let place_in_input = |k: usize| input.iter().position(|v| v.equals(cut[k])).unwrap_or(k);
            (reason.first, reason.second) = match issue {
                Issue::Short => (0, 0),
                Issue::Repeated(k) => (place_in_input(k), 0),
                Issue::Crossing(lower, higher) => (place_in_input(lower), place_in_input(higher)),
            };
        }
        reason
    }

    fn issue_reason(&self, ring: &[Vertex], issue: Issue, [short, repeated, crossing]: [u8; 3]) -> Reason {
        let from = usize::from(self.makes(Mistake::PositionsFromOne));
        let reason = match issue {
            Issue::Short => Reason { number: short, first: 0, second: 0 },
            Issue::Repeated(k) => {
                let behind = usize::from(self.makes(Mistake::SecondOfRepeated));
                Reason { number: repeated, first: k + behind + from, second: 0 }
            }
            Issue::Crossing(lower, higher) => {
                let (first, second) = self.edge_numbers(ring, lower, higher);
                Reason { number: crossing, first: first + from, second: second + from }
            }
        };
        if self.makes(Mistake::ReasonsMerged) {
            return Reason { number: short, first: 0, second: 0 };
        }
        reason
    }

    /// From 0 and the lower first, edge k running from coordinate k to the next.
    fn edge_numbers(&self, ring: &[Vertex], lower: usize, higher: usize) -> (usize, usize) {
        if self.makes(Mistake::EdgesByEnd) {
            let edges = ring.len() - 1;
            let (a, b) = ((lower + 1) % edges, (higher + 1) % edges);
            return (a.min(b), a.max(b));
        }
        if self.makes(Mistake::HigherEdgeFirst) {
            return (higher, lower);
        }
        (lower, higher)
    }
}
