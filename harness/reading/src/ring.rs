//! Vertices, closing and B.

use crate::{Mistake, Reading};

#[derive(Clone, Copy, Debug)]
pub struct Vertex {
    pub x: f64,
    pub y: f64,
}

impl Vertex {
    /// Compared in floats: -0.0 equals 0.0, NaN equals nothing.
    pub fn equals(self, other: Vertex) -> bool {
        self.x == other.x && self.y == other.y
    }

    fn has_signs_of(self, other: Vertex) -> bool {
        self.x.is_sign_negative() == other.x.is_sign_negative()
            && self.y.is_sign_negative() == other.y.is_sign_negative()
    }

    pub fn is_finite(self) -> bool {
        self.x.is_finite() && self.y.is_finite()
    }
}

/// x, y numbers as vertices.
pub fn vertices(numbers: &[f64]) -> Vec<Vertex> {
    numbers.chunks(2).map(|pair| Vertex { x: pair[0], y: pair[1] }).collect()
}

/// n plus half of n rounded down: the most vertices that a pass makes of n.
pub fn half_growth(n: usize) -> usize {
    n + n / 2
}

/// Document 01's B of n.
pub fn b(n: usize) -> usize {
    match n {
        0 => 0,
        _ => half_growth(half_growth(half_growth(half_growth(n)))) + 2,
    }
}

impl Reading {
    /// Appends the first coordinate to a non-empty ring whose last doesn't equal it.
    pub fn close(&self, ring: &mut Vec<Vertex>) {
        let (Some(&first), Some(&last)) = (ring.first(), ring.last()) else {
            return;
        };
        if self.is_open(first, last) {
            ring.push(first);
        }
    }

    /// Whether a ring with these ends is closed by its first coordinate once more.
    pub fn is_open(&self, first: Vertex, last: Vertex) -> bool {
        let told_apart = self.makes(Mistake::ZeroSignsKeepOpen) && !first.has_signs_of(last);
        !first.equals(last) || told_apart
    }

    pub fn closed(&self, rings: &[Vec<Vertex>]) -> Vec<Vec<Vertex>> {
        let mut rings = rings.to_vec();
        rings.iter_mut().for_each(|ring| self.close(ring));
        rings
    }

    /// The length of a lent ring that room and limits go by: after closing.
    pub fn length_for_room(&self, lent: &[Vertex]) -> usize {
        if self.makes(Mistake::RoomUnclosed) || (self.makes(Mistake::NanSingleStaysOne) && lent.len() == 1) {
            return lent.len();
        }
        self.closed_length(lent)
    }

    /// The length of a lent ring that a ring call goes by: as it is lent.
    pub fn length_in_ring_call(&self, lent: &[Vertex]) -> usize {
        if self.makes(Mistake::RoomClosedInRingCall) {
            return self.closed_length(lent);
        }
        lent.len()
    }

    pub fn closed_length(&self, lent: &[Vertex]) -> usize {
        let mut ring = lent.to_vec();
        self.close(&mut ring);
        ring.len()
    }
}
