//! One pass of the ring cutter with the slices lent to it, and what it leaves there. No entry point is a single pass: crate
//! `probe` exports it for tests.

use crate::calls::{first_difference, same_whole, written_over, MOST_COORDINATES};
use crate::origins::CutRing;
use crate::room::most_passed;
use crate::{flat, same_number, Bounds};

/// The line that a pass cuts at.
#[derive(Clone, Copy, Debug, PartialEq, Eq, PartialOrd, Ord)]
pub enum Edge {
    Left,
    Right,
    Bottom,
    Top,
}

impl Edge {
    /// In the order of the passes.
    pub const ALL: [Edge; 4] = [Edge::Left, Edge::Right, Edge::Bottom, Edge::Top];
}

/// One pass over x, y numbers, of which an odd last one is left off, and the vertices' origins, at an edge of bounds used as given.
#[derive(Clone, Debug)]
pub struct PassCall {
    pub ring: Vec<f64>,
    pub origins: Vec<u16>,
    pub edge: Edge,
    pub bounds: Bounds,
    pub out: Vec<f64>,
    pub out_origins: Vec<u16>,
}

/// What a pass gives: its vertices with their origins, and how many verdicts it worked out.
#[derive(Clone, Debug)]
pub struct Passed {
    pub cut: CutRing,
    pub verdicts: usize,
}

/// The most vertices that the exported pass takes; no specimen has so many.
pub const MOST_VERTICES: usize = 8 * MOST_COORDINATES;

/// What is answered where a slice is too short; no pass makes so many vertices.
pub const NO_ROOM: usize = usize::MAX;

/// What comes of a pass: the answer, which is its count of vertices, its count of verdicts, and the output afterwards.
#[derive(Clone, Debug)]
pub struct PassAfter {
    pub answer: usize,
    /// None where there is no room: then nothing is written, and no count either.
    pub verdicts: Option<usize>,
    pub out: Vec<f64>,
    pub out_origins: Vec<u16>,
}

impl PassCall {
    /// Whether every vertex has an origin, the output holds all that a pass can make of so many vertices, and they are not too many.
    pub fn has_room(&self) -> bool {
        let vertices = self.ring.len() / 2;
        let made = most_passed(vertices);
        vertices <= MOST_VERTICES
            && self.origins.len() >= vertices
            && self.out.len() >= 2 * made
            && self.out_origins.len() >= made
    }

    /// None is what comes of a pass without room.
    pub fn after(&self, passed: Option<&Passed>) -> PassAfter {
        match passed {
            None => PassAfter {
                answer: NO_ROOM,
                verdicts: None,
                out: self.out.clone(),
                out_origins: self.out_origins.clone(),
            },
            Some(Passed { cut, verdicts }) => PassAfter {
                answer: cut.ring.len(),
                verdicts: Some(*verdicts),
                out: written_over(&self.out, &flat(&cut.ring)),
                out_origins: written_over(&self.out_origins, &cut.origins),
            },
        }
    }
}

impl PassAfter {
    /// The first thing that is not the same in the other; a NaN's bits are free.
    pub fn difference(&self, other: &Self) -> Option<String> {
        first_difference("answer", &[self.answer], &[other.answer], same_whole)
            .or_else(|| first_difference("verdicts", &[self.verdicts], &[other.verdicts], same_whole))
            .or_else(|| first_difference("output", &self.out, &other.out, same_number))
            .or_else(|| first_difference("origins", &self.out_origins, &other.out_origins, same_whole))
    }
}

#[cfg(test)]
mod tests {
    use super::*;
    use crate::Coord;

    fn call(ring: &[f64], out: usize) -> PassCall {
        PassCall {
            ring: ring.to_vec(),
            origins: vec![5; ring.len() / 2],
            edge: Edge::Left,
            bounds: [0.0, 0.0, 10.0, 10.0],
            out: vec![7.0; out],
            out_origins: vec![7; out / 2],
        }
    }

    #[test]
    fn room_is_half_as_much_again() {
        for (vertices, asked) in [(0, 0), (1, 2), (2, 6), (3, 8), (4, 12)] {
            for ring in [vec![5.0; 2 * vertices], vec![5.0; 2 * vertices + 1]] {
                let exact = call(&ring, asked);
                assert!(exact.has_room());
                if asked > 0 {
                    let one_short = |change: fn(&mut PassCall)| {
                        let mut short = exact.clone();
                        change(&mut short);
                        short.has_room()
                    };
                    assert!(!one_short(|call| call.out.truncate(call.out.len() - 1)));
                    assert!(!one_short(|call| call.out_origins.truncate(call.out_origins.len() - 1)));
                    assert!(!one_short(|call| call.origins.truncate(call.origins.len() - 1)));
                }
            }
        }
    }

    #[test]
    fn differences_are_named() {
        let call = call(&[5.0, f64::NAN], 3);
        let after = |vertices: &[(Coord, u16)], verdicts: usize| {
            call.after(Some(&Passed { cut: vertices.iter().copied().collect(), verdicts }))
        };
        let difference = |other: PassAfter| after(&[((5.0, f64::NAN), 3)], 2).difference(&other);
        assert_eq!(difference(after(&[((5.0, -f64::NAN), 3)], 2)), None);
        assert_eq!(difference(after(&[], 2)).unwrap(), "answer, value 0: 1 and 0");
        assert_eq!(difference(after(&[((5.0, f64::NAN), 3)], 1)).unwrap(), "verdicts, value 0: Some(2) and Some(1)");
        assert_eq!(difference(after(&[((6.0, f64::NAN), 3)], 2)).unwrap(), "output, value 0: 5.0 and 6.0");
        assert_eq!(difference(after(&[((5.0, f64::NAN), 4)], 2)).unwrap(), "origins, value 0: 3 and 4");
        let no_room = format!("answer, value 0: {NO_ROOM} and 0");
        assert_eq!(call.after(None).difference(&after(&[], 0)).unwrap(), no_room);
    }
}
