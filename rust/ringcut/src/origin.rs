//! Where a coordinate of a cut came from.

use core::fmt::{self, Display, Formatter};

use crate::Edge;

/// Where a coordinate of a cut came from: 16 bits in the slices for origins and in a frame's answer, every value of which stands for
/// one.
///
/// A coordinate that is appended to close a cut ring has the origin of the first; where the last equals the first already, none is
/// appended, and the last keeps its own. As text it is what a support desk reads out, where a position is the number of a corner.
///
/// ```
/// use ringcut::{Edge, Origin};
///
/// assert_eq!(Origin::from(3), Origin::Position(3));
/// assert_eq!(Origin::from(65_533), Origin::Line(Edge::Right));
/// assert_eq!([Origin::Position(3), Origin::Line(Edge::Right)].map(Origin::number), [3, 65_533]);
/// assert_eq!(Origin::Position(3).to_string(), "corner 3");
/// assert_eq!(Origin::Line(Edge::Right).to_string(), "Right");
/// ```
///
/// By the origins of its ends [`is_along_tile`](crate::is_along_tile) tells whether an edge of a cut ring runs along the tile's edge, and
/// so is no border.
#[derive(Clone, Copy, Debug, PartialEq, Eq, Hash)]
pub enum Origin {
    /// It is the coordinate that stands at this position, from 0 and under 65,532, in the ring that was lent. Each ring has
    /// positions of its own, holes too.
    Position(u16),
    /// It was made by this line, where an edge of the ring, as the lines before it have left it, crosses it. The ring is cut at
    /// Left, Right, Bottom and Top, in this order.
    Line(Edge),
}

/// The numbers of the four lines; those below are positions.
const LEFT: u16 = 65_532;
const RIGHT: u16 = 65_533;
const BOTTOM: u16 = 65_534;
const TOP: u16 = 65_535;

impl Origin {
    /// The number of the origin: the position, or 65,532 to 65,535 for Left, Right, Bottom and Top.
    pub const fn number(self) -> u16 {
        match self {
            Origin::Position(position) => position,
            Origin::Line(Edge::Left) => LEFT,
            Origin::Line(Edge::Right) => RIGHT,
            Origin::Line(Edge::Bottom) => BOTTOM,
            Origin::Line(Edge::Top) => TOP,
        }
    }
}

impl From<u16> for Origin {
    fn from(number: u16) -> Origin {
        match number {
            LEFT => Origin::Line(Edge::Left),
            RIGHT => Origin::Line(Edge::Right),
            BOTTOM => Origin::Line(Edge::Bottom),
            TOP => Origin::Line(Edge::Top),
            position => Origin::Position(position),
        }
    }
}

impl Display for Origin {
    fn fmt(&self, f: &mut Formatter) -> fmt::Result {
        match self {
            Origin::Position(position) => write!(f, "corner {position}"),
            Origin::Line(edge) => write!(f, "{edge:?}"),
        }
    }
}

#[cfg(test)]
mod tests {
    extern crate std;

    use std::string::ToString;

    use super::Origin;
    use crate::Edge;

    #[test]
    fn every_number_is_an_origin() {
        for number in 0..=u16::MAX {
            let origin = Origin::from(number);
            assert_eq!(origin.number(), number);
            assert_eq!(matches!(origin, Origin::Position(_)), number < 65_532);
        }
    }

    #[test]
    fn the_last_four_numbers_are_the_lines() {
        let lines = [Edge::Left, Edge::Right, Edge::Bottom, Edge::Top].map(Origin::Line);
        assert_eq!([65_532, 65_533, 65_534, 65_535].map(Origin::from), lines);
        assert_eq!(lines.map(|line| line.to_string()), ["Left", "Right", "Bottom", "Top"]);
        assert_eq!(Origin::from(65_531).to_string(), "corner 65531");
    }
}
