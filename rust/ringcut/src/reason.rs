//! Why an overlay is wanted, and where in the exterior.

use core::fmt::{self, Display, Formatter};

/// One of a tile's four bounds: the line that a ring is cut at, or that an edge of a cut runs along.
#[derive(Clone, Copy, Debug, PartialEq, Eq, Hash)]
pub enum Edge {
    /// x is west.
    Left,
    /// x is east.
    Right,
    /// y is south.
    Bottom,
    /// y is north.
    Top,
}

impl Edge {
    /// The side of the tile that it bounds: `west`, `east`, `south` or `north`.
    pub const fn side(self) -> &'static str {
        match self {
            Edge::Left => "west",
            Edge::Right => "east",
            Edge::Bottom => "south",
            Edge::Top => "north",
        }
    }
}

/// What is wrong with an exterior, and where. Where there are several issues, a short one is told before a repeated corner, and that
/// before a crossing.
///
/// Corners are the coordinates of the exterior, numbered from 0 as they stand, the one that closes it last; edge k runs from corner k
/// to corner k + 1. Where an exterior of n coordinates was lent open, corner n is the closing one, equal to corner 0, and is not among
/// those that were lent: edge n - 1 runs from the last coordinate to the first. So the end of an edge is to be read at corner
/// `(edge + 1) % n`.
#[derive(Clone, Copy, Debug, PartialEq, Eq, Hash)]
pub enum Issue {
    /// It has fewer than 4 coordinates, the closing one counted.
    Short,
    /// A corner and the next differ by less than 1e-10 in x and in y. Only the last edge, which closes the exterior, may be so short.
    /// [`mend`](crate::mend) leaves no such corner.
    Repeated {
        /// The first corner that the next repeats.
        corner: usize,
    },
    /// Two edges cross: of all pairs that do, the one with the lowest `lower`, and of those the one with the lowest `higher`. It is
    /// tested in floating point; where all eight numbers are whole multiples of 1/2^48 and at most 256 in magnitude the two edges then
    /// also share a point, exactly. With [`assume_simple`](crate::Flags::assume_simple) it is not looked for.
    Crossing {
        /// The edge with the lower number.
        lower: usize,
        /// The edge with the higher number.
        higher: usize,
    },
}

/// Why an overlay is wanted. As text it is the sentence that a support desk reads out.
///
/// ```
/// use ringcut::{Edge, Issue, Reason};
///
/// let reason = Reason::Input(Issue::Repeated { corner: 3 });
/// assert_eq!(reason.to_string(), "corner 3 is repeated");
/// assert_eq!((reason.number(), reason.positions(), reason.merged_number()), (7, (3, 0), 1));
///
/// let reason = Reason::Input(Issue::Crossing { lower: 0, higher: 4 });
/// assert_eq!(reason.to_string(), "edges 0 and 4 cross");
/// assert_eq!((reason.number(), reason.positions(), reason.merged_number()), (8, (0, 4), 1));
///
/// let reason = Reason::Bridge(Edge::Right);
/// assert_eq!(reason.to_string(), "an edge of the cut exterior runs along the east bound");
/// assert_eq!((reason.number(), reason.positions(), reason.merged_number()), (4, (0, 0), 4));
/// ```
#[derive(Clone, Copy, Debug, PartialEq, Eq, Hash)]
pub enum Reason {
    /// The exterior has an issue.
    Input(Issue),
    /// The exterior has none, but cut to the bounds it has one. Corners and edges are then those of the cut exterior, which the
    /// answer doesn't bring, and may have other numbers than in the exterior that was lent.
    Cut(Issue),
    /// An edge of the cut exterior runs along this bound.
    Bridge(Edge),
}

impl Reason {
    /// The number of the reason, 1 to 10, as it stands in a frame's answer: 1, 7 and 8 for an exterior that is short, repeats a
    /// corner or crosses itself, 2, 9 and 10 for a cut exterior, 3 to 6 for a bridge along Left, Right, Bottom or Top.
    pub const fn number(self) -> u8 {
        match self {
            Reason::Input(Issue::Short) => 1,
            Reason::Cut(Issue::Short) => 2,
            Reason::Bridge(Edge::Left) => 3,
            Reason::Bridge(Edge::Right) => 4,
            Reason::Bridge(Edge::Bottom) => 5,
            Reason::Bridge(Edge::Top) => 6,
            Reason::Input(Issue::Repeated { .. }) => 7,
            Reason::Input(Issue::Crossing { .. }) => 8,
            Reason::Cut(Issue::Repeated { .. }) => 9,
            Reason::Cut(Issue::Crossing { .. }) => 10,
        }
    }

    /// Document 01's number of the reason, 1 to 6: 1 for every issue of the exterior, 2 for every issue of the cut exterior.
    pub const fn merged_number(self) -> u8 {
        match self {
            Reason::Input(_) => 1,
            Reason::Cut(_) => 2,
            Reason::Bridge(_) => self.number(),
        }
    }

    /// The two positions that stand in an answer with the number: the repeated corner and 0, or the lower and the higher of the edges
    /// that cross, else zeros.
    pub const fn positions(self) -> (usize, usize) {
        match self {
            Reason::Input(Issue::Repeated { corner }) | Reason::Cut(Issue::Repeated { corner }) => (corner, 0),
            Reason::Input(Issue::Crossing { lower, higher }) | Reason::Cut(Issue::Crossing { lower, higher }) => {
                (lower, higher)
            }
            Reason::Input(Issue::Short) | Reason::Cut(Issue::Short) | Reason::Bridge(_) => (0, 0),
        }
    }

    /// The reason with this number and these positions, if there is one.
    pub(crate) fn from_numbers(number: i64, first: usize, second: usize) -> Option<Reason> {
        Some(match (number, first, second) {
            (1, 0, 0) => Reason::Input(Issue::Short),
            (2, 0, 0) => Reason::Cut(Issue::Short),
            (3, 0, 0) => Reason::Bridge(Edge::Left),
            (4, 0, 0) => Reason::Bridge(Edge::Right),
            (5, 0, 0) => Reason::Bridge(Edge::Bottom),
            (6, 0, 0) => Reason::Bridge(Edge::Top),
            (7, corner, 0) => Reason::Input(Issue::Repeated { corner }),
            (8, lower, higher) if lower < higher => Reason::Input(Issue::Crossing { lower, higher }),
            (9, corner, 0) => Reason::Cut(Issue::Repeated { corner }),
            (10, lower, higher) if lower < higher => Reason::Cut(Issue::Crossing { lower, higher }),
            _ => return None,
        })
    }
}

impl Display for Reason {
    fn fmt(&self, f: &mut Formatter) -> fmt::Result {
        match self {
            Reason::Input(Issue::Short) => write!(f, "the exterior has fewer than 4 corners, the closing one counted"),
            Reason::Input(Issue::Repeated { corner }) => write!(f, "corner {corner} is repeated"),
            Reason::Input(Issue::Crossing { lower, higher }) => write!(f, "edges {lower} and {higher} cross"),
            Reason::Cut(Issue::Short) => {
                write!(f, "the cut exterior has fewer than 4 corners, the closing one counted")
            }
            Reason::Cut(Issue::Repeated { corner }) => write!(f, "corner {corner} of the cut is repeated"),
            Reason::Cut(Issue::Crossing { lower, higher }) => write!(f, "edges {lower} and {higher} of the cut cross"),
            Reason::Bridge(edge) => write!(f, "an edge of the cut exterior runs along the {} bound", edge.side()),
        }
    }
}

#[cfg(test)]
mod tests {
    extern crate std;

    use std::string::ToString;

    use super::Reason;

    /// Number, positions, document 01's number and the sentence.
    const REASONS: [(i64, usize, usize, u8, &str); 10] = [
        (1, 0, 0, 1, "the exterior has fewer than 4 corners, the closing one counted"),
        (2, 0, 0, 2, "the cut exterior has fewer than 4 corners, the closing one counted"),
        (3, 0, 0, 3, "an edge of the cut exterior runs along the west bound"),
        (4, 0, 0, 4, "an edge of the cut exterior runs along the east bound"),
        (5, 0, 0, 5, "an edge of the cut exterior runs along the south bound"),
        (6, 0, 0, 6, "an edge of the cut exterior runs along the north bound"),
        (7, 3, 0, 1, "corner 3 is repeated"),
        (8, 0, 4, 1, "edges 0 and 4 cross"),
        (9, 65_536, 0, 2, "corner 65536 of the cut is repeated"),
        (10, 12, 331_755, 2, "edges 12 and 331755 of the cut cross"),
    ];

    #[test]
    fn every_reason_has_its_numbers_and_its_sentence() {
        for (number, first, second, merged_number, sentence) in REASONS {
            let reason = Reason::from_numbers(number, first, second).unwrap();
            assert_eq!((i64::from(reason.number()), reason.positions()), (number, (first, second)));
            assert_eq!(reason.merged_number(), merged_number);
            assert_eq!(reason.to_string(), sentence);
        }
    }

    #[test]
    fn a_position_that_does_not_apply_is_zero() {
        for number in 1..=6 {
            assert_eq!(Reason::from_numbers(number, 1, 0), None, "reason {number}");
            assert_eq!(Reason::from_numbers(number, 0, 1), None, "reason {number}");
        }
        for number in [7, 9] {
            assert!(Reason::from_numbers(number, 0, 0).is_some(), "reason {number}");
            assert_eq!(Reason::from_numbers(number, 0, 1), None, "reason {number}");
        }
    }

    #[test]
    fn of_two_edges_the_lower_is_first() {
        for number in [8, 10] {
            assert!(Reason::from_numbers(number, 3, 5).is_some(), "reason {number}");
            assert_eq!(Reason::from_numbers(number, 5, 3), None, "reason {number}");
            assert_eq!(Reason::from_numbers(number, 3, 3), None, "reason {number}");
        }
    }

    #[test]
    fn other_numbers_are_no_reasons() {
        assert_eq!(Reason::from_numbers(0, 0, 0), None);
        assert_eq!(Reason::from_numbers(11, 0, 0), None);
    }
}
