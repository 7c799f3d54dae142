//! What becomes of one part, asked of the Rust's own predicates: the Rust gives no part numbers and no reasons.

use formats::reason::Reason;
use geo::{Coord, Geometry, LineString, Polygon};
use tylertoo::clip::opened as clip;
use tylertoo::ioverlay_clip::opened::polygon_representable;
use tylertoo::sutherland_hodgman::clip_polygon_sh;
use tylertoo::tile::TileBounds;

use crate::issue::issue_of;
use crate::run::Hints;

pub enum Route {
    LeftOut,
    Dropped,
    Unchanged,
    Cut(Polygon<f64>),
    Overlay(Reason),
}

/// The reasons of a short ring, a repeated corner and a crossing.
const INPUT_ISSUES: [u8; 3] = [1, 7, 8];
const CUT_ISSUES: [u8; 3] = [2, 9, 10];
const FIRST_BRIDGE: u8 = 3;

/// A part of a multipolygon that is neither inside nor dropped as a whole; inside, issues are not looked at.
pub fn route_of_part(part: &Polygon<f64>, buffered: &TileBounds, hints: Hints) -> Route {
    match clip::polygon_rect_all_rings(part) {
        Some((rect, true)) if clip::is_fully_inside(&rect, buffered) => Route::Unchanged,
        _ => route_of_polygon(part, buffered, hints),
    }
}

pub fn route_of_polygon(polygon: &Polygon<f64>, buffered: &TileBounds, hints: Hints) -> Route {
    let Some((rect, finite)) = clip::polygon_rect_all_rings(polygon) else {
        return Route::LeftOut;
    };
    if !finite {
        return Route::Dropped;
    }
    if !clip::intersects_bounds(&rect, buffered) {
        return Route::LeftOut;
    }
    if let Some(issue) = issue_of(polygon, hints.assume_simple) {
        return overlay(polygon, issue.reason(INPUT_ISSUES));
    }
    if clip::is_fully_inside(&rect, buffered) {
        return Route::Unchanged;
    }
    let Some(Geometry::Polygon(cut)) = clip_polygon_sh(polygon, buffered) else {
        return Route::LeftOut;
    };
    match reason_against(&cut, buffered, hints) {
        Some(reason) => overlay(polygon, reason),
        None => Route::Cut(cut),
    }
}

fn overlay(polygon: &Polygon<f64>, reason: Reason) -> Route {
    if polygon_representable(polygon) {
        Route::Overlay(reason)
    } else {
        Route::Dropped
    }
}

/// Why a cut is not good enough, if it isn't.
fn reason_against(cut: &Polygon<f64>, buffered: &TileBounds, hints: Hints) -> Option<Reason> {
    if let Some(issue) = issue_of(cut, hints.assume_simple) {
        return Some(issue.reason(CUT_ISSUES));
    }
    if hints.assume_simple && hints.skip_boundary_fallback {
        return None;
    }
    cut.exterior().0.windows(2).find_map(|ends| bridge_reason(ends[0], ends[1], buffered))
}

/// The first of Left, Right, Bottom and Top that the edge runs along, asked of the Rust's test one edge and one line at a
/// time: an edge alone is a ring there and back, and a line at NaN is near nothing.
fn bridge_reason(start: Coord<f64>, end: Coord<f64>, buffered: &TileBounds) -> Option<Reason> {
    let edge = Polygon::new(LineString::new(vec![start, end]), Vec::new());
    let no_line = TileBounds::new(f64::NAN, f64::NAN, f64::NAN, f64::NAN);
    let lines = [
        TileBounds { lng_min: buffered.lng_min, ..no_line },
        TileBounds { lng_max: buffered.lng_max, ..no_line },
        TileBounds { lat_min: buffered.lat_min, ..no_line },
        TileBounds { lat_max: buffered.lat_max, ..no_line },
    ];
    (FIRST_BRIDGE..)
        .zip(lines)
        .find(|(_, line)| clip::has_boundary_connecting_edges(&edge, line))
        .map(|(number, _)| Reason::without_positions(number))
}
