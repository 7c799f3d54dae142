//! Between the harness's plain values and geo-types.

use formats::{Bounds, Coord, Ring};
use geo::{LineString, Polygon};
use tylertoo::tile::TileBounds;

pub fn bounds_of([west, south, east, north]: Bounds) -> TileBounds {
    TileBounds::new(west, south, east, north)
}

pub fn coord_of((x, y): Coord) -> geo::Coord<f64> {
    geo::Coord { x, y }
}

pub fn coords_of(ring: &[Coord]) -> Vec<geo::Coord<f64>> {
    ring.iter().copied().map(coord_of).collect()
}

pub fn ring_of(coords: &[geo::Coord<f64>]) -> Ring {
    coords.iter().map(|c| (c.x, c.y)).collect()
}

/// `Polygon::new` closes every ring.
pub fn polygon_of(rings: &[Ring]) -> Polygon<f64> {
    let mut rings = rings.iter().map(|ring| LineString::new(coords_of(ring)));
    let exterior = rings.next().expect("a part has an exterior");
    Polygon::new(exterior, rings.collect())
}

/// Exterior first, as the polygon holds them.
pub fn rings_of(polygon: &Polygon<f64>) -> Vec<Ring> {
    std::iter::once(polygon.exterior()).chain(polygon.interiors()).map(|ring| ring_of(&ring.0)).collect()
}
