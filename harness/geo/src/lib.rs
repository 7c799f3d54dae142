//! Stand-in for `geo`: the real geo-types under the names the source imports, and the two algorithms it names.

pub use geo_types::{
    Coordinate as Coord, Geometry, Line, LineString, MultiLineString, MultiPolygon, Point, Polygon, Rect,
};

pub mod algorithm {
    pub mod line_intersection;
}

/// The source asks for a bounding rectangle only of points, lines and repairs, which the port leaves out.
pub trait BoundingRect {
    fn bounding_rect(&self) -> Option<Rect<f64>> {
        unreachable!("points, lines and repairs are left out of the port")
    }
}

impl BoundingRect for Geometry<f64> {}
impl BoundingRect for LineString<f64> {}
impl BoundingRect for MultiLineString<f64> {}
impl BoundingRect for Polygon<f64> {}
