//! A corner of a cut ring, and which edges between two of them are borders.

use crate::{Bounds, Origin};

/// A coordinate of a cut ring with its origin.
#[derive(Clone, Copy, Debug, PartialEq)]
pub struct Vertex {
    /// Longitude.
    pub x: f64,
    /// Latitude.
    pub y: f64,
    /// Where it came from.
    pub origin: Origin,
}

/// Whether the edge between two neighbours of a cut ring runs along the tile's edge, where the area goes on beyond it, so that it is
/// no border and not to be drawn as one. `bounds` are those that were cut at: where there is a buffer, the
/// [widened](Bounds::widened) ones.
///
/// It does where a line made both, and it was the same line, or both lie on the west bound, or both on the east bound. The repository's
/// README.md says why, and where that errs ("Don't draw the tile's edge as a border").
///
/// ```
/// use ringcut::{is_along_tile, Bounds, Edge, Origin, Vertex};
///
/// let bounds = Bounds { west: 0.0, south: 0.0, east: 10.0, north: 10.0 };
/// let right = |y| Vertex { x: 10.0, y, origin: Origin::Line(Edge::Right) };
/// let sent = Vertex { x: 5.0, y: 8.0, origin: Origin::Position(3) };
/// assert!(is_along_tile(bounds, right(5.0), right(8.0)));
/// assert!(!is_along_tile(bounds, right(8.0), sent));
/// // Top made the tile's corner, which lies on the east bound as well.
/// let corner = Vertex { x: 10.0, y: 10.0, origin: Origin::Line(Edge::Top) };
/// assert!(is_along_tile(bounds, right(5.0), corner));
/// ```
pub fn is_along_tile(bounds: Bounds, a: Vertex, b: Vertex) -> bool {
    let both_at = |bound| a.x == bound && b.x == bound;
    match (a.origin, b.origin) {
        (Origin::Line(one), Origin::Line(other)) => one == other || both_at(bounds.west) || both_at(bounds.east),
        _ => false,
    }
}
