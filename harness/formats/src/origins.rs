//! Where the vertices of a cut came from: document 02, point 12. An origin is a position in the ring as it was lent, or the number
//! of the line that made the vertex.

use crate::passes::Edge;
use crate::{flat, Coord, Ring};

/// The number of Left; those of Right, Bottom and Top follow it. No position is so high.
const FIRST_LINE: u16 = 65_532;

/// The origin of a vertex that this line made.
pub fn line_origin(edge: Edge) -> u16 {
    FIRST_LINE + edge as u16
}

/// The line that an origin is the number of; none where it is a position.
pub fn line_of(origin: u16) -> Option<Edge> {
    Edge::ALL.into_iter().find(|&edge| line_origin(edge) == origin)
}

/// An origin in words: the corner of the ring lent, or the line's name.
pub fn in_words(origin: u16) -> String {
    line_of(origin).map_or_else(|| format!("corner {origin}"), |edge| format!("{edge:?}"))
}

/// A cut ring, and where each of its vertices came from.
#[derive(Clone, Debug, Default)]
pub struct CutRing {
    pub ring: Ring,
    pub origins: Vec<u16>,
}

impl CutRing {
    /// Each vertex with its origin, of which there are as many.
    pub fn vertices(&self) -> impl Iterator<Item = (Coord, u16)> + '_ {
        assert_eq!(self.ring.len(), self.origins.len(), "as many origins as vertices");
        self.ring.iter().copied().zip(self.origins.iter().copied())
    }
}

impl FromIterator<(Coord, u16)> for CutRing {
    fn from_iter<I: IntoIterator<Item = (Coord, u16)>>(vertices: I) -> CutRing {
        let (ring, origins) = vertices.into_iter().unzip();
        CutRing { ring, origins }
    }
}

/// The x, y numbers of rings one behind the other.
pub fn numbers_of(rings: &[CutRing]) -> Vec<f64> {
    rings.iter().flat_map(|cut| flat(&cut.ring)).collect()
}

/// Their origins, one for each coordinate.
pub fn origins_of(rings: &[CutRing]) -> Vec<u16> {
    rings.iter().flat_map(|cut| cut.origins.iter().copied()).collect()
}

#[cfg(test)]
mod tests {
    use super::*;

    #[test]
    fn lines_are_numbered_in_the_order_of_the_passes() {
        assert_eq!(Edge::ALL.map(line_origin), [65_532, 65_533, 65_534, 65_535]);
        for edge in Edge::ALL {
            assert_eq!(line_of(line_origin(edge)), Some(edge));
        }
        assert_eq!([0, 1, 65_531].map(line_of), [None; 3]);
    }

    #[test]
    fn origins_are_said_in_words() {
        let words = [0, 65_531, 65_532, 65_533, 65_534, 65_535].map(in_words);
        assert_eq!(words, ["corner 0", "corner 65531", "Left", "Right", "Bottom", "Top"]);
    }
}
