//! One run of `clip_geometry_simple`, with what the stand-ins saw of it.

use geo::{Geometry, Polygon};
use i_overlay::record::{call_of_piece, take_calls, OverlayCall};
use tylertoo::clip::clip_geometry_simple;
use tylertoo::diagnostics::Diagnostics;
use tylertoo::tile::TileBounds;

/// The caller's two flags.
#[derive(Clone, Copy)]
pub struct Hints {
    pub assume_simple: bool,
    pub skip_boundary_fallback: bool,
}

pub struct Run {
    /// The result's polygons; none where the Rust answers `None`.
    pub polygons: Vec<Polygon<f64>>,
    pub guard_count: u64,
    pub overlay_calls: Vec<OverlayCall>,
}

pub fn run(geometry: &Geometry<f64>, bounds: &TileBounds, buffer: f64, hints: Hints) -> Run {
    let diagnostics = Diagnostics::default();
    take_calls();
    let result =
        clip_geometry_simple(geometry, bounds, buffer, hints.assume_simple, hints.skip_boundary_fallback, &diagnostics);
    let polygons = match result {
        None => Vec::new(),
        Some(Geometry::Polygon(polygon)) => vec![polygon],
        Some(Geometry::MultiPolygon(polygons)) => polygons.0,
        Some(other) => panic!("a polygon was cut to {other:?}"),
    };
    Run { polygons, guard_count: diagnostics.guard_count(), overlay_calls: take_calls() }
}

/// The number of the overlay call that answered this polygon, if one did.
pub fn overlay_call_of(polygon: &Polygon<f64>) -> Option<usize> {
    let exterior: Vec<[f64; 2]> = polygon.exterior().0.iter().map(|c| [c.x, c.y]).collect();
    call_of_piece(&exterior)
}
