//! The answer to a call: the routes of the parts, laid beside the one run on the whole. Whatever the two say differently
//! stops the harness: then the routes were asked wrongly, and nothing compared with them would count.

use formats::answer::{Answer, Listed, ListedPart};
use formats::{flat, same_numbers, Ring};
use geo::{Geometry, MultiPolygon, Polygon};
use i_overlay::record::OverlayCall;
use tylertoo::clip::opened as clip;
use tylertoo::tile::TileBounds;

use crate::convert::rings_of;
use crate::origins::cut_rings;
use crate::route::{route_of_part, route_of_polygon, Route};
use crate::run::{overlay_call_of, run, Hints, Run};

pub fn answer(geometry: &Geometry<f64>, bounds: &TileBounds, buffer: f64, hints: Hints) -> Answer {
    let run = run(geometry, bounds, buffer, hints);
    let buffered = TileBounds::new(
        bounds.lng_min - buffer,
        bounds.lat_min - buffer,
        bounds.lng_max + buffer,
        bounds.lat_max + buffer,
    );
    match geometry {
        Geometry::Polygon(polygon) => polygon_answer(polygon, &buffered, hints, run),
        Geometry::MultiPolygon(parts) => multipolygon_answer(parts, &buffered, hints, run),
        other => unreachable!("{other:?} is left out of the port"),
    }
}

fn polygon_answer(polygon: &Polygon<f64>, buffered: &TileBounds, hints: Hints, run: Run) -> Answer {
    let route = route_of_polygon(polygon, buffered, hints);
    let whole = match route {
        Route::LeftOut => Some(Answer::Nothing { guard_count: 0 }),
        Route::Dropped => Some(Answer::Dropped),
        Route::Unchanged => Some(Answer::Unchanged),
        Route::Cut(_) | Route::Overlay(_) => None,
    };
    let listed = put_together(std::slice::from_ref(polygon), vec![route], buffered, run);
    whole.unwrap_or(listed)
}

fn multipolygon_answer(multipolygon: &MultiPolygon<f64>, buffered: &TileBounds, hints: Hints, run: Run) -> Answer {
    let parts = &multipolygon.0;
    let every_part = |route: fn() -> Route| parts.iter().map(|_| route()).collect();
    let (whole, routes): (Option<Answer>, Vec<Route>) = match clip::multipolygon_rect_all_rings(multipolygon) {
        None => (Some(Answer::Nothing { guard_count: 0 }), every_part(|| Route::LeftOut)),
        Some((_, false, _)) => {
            // Counted once for all parts.
            let mut routes: Vec<Route> = every_part(|| Route::LeftOut);
            routes[0] = Route::Dropped;
            (Some(Answer::Dropped), routes)
        }
        Some((rect, true, _)) if !clip::intersects_bounds(&rect, buffered) => {
            (Some(Answer::Nothing { guard_count: 0 }), every_part(|| Route::LeftOut))
        }
        Some((rect, true, _)) if clip::is_fully_inside(&rect, buffered) => {
            (Some(Answer::Unchanged), every_part(|| Route::Unchanged))
        }
        Some(_) => (None, parts.iter().map(|part| route_of_part(part, buffered, hints)).collect()),
    };
    let listed = put_together(parts, routes, buffered, run);
    whole.unwrap_or(listed)
}

/// Lists the run's polygons under the parts that they came from; every polygon, overlay call and guard count of the run
/// must be accounted for.
fn put_together(parts: &[Polygon<f64>], routes: Vec<Route>, buffered: &TileBounds, run: Run) -> Answer {
    let mut polygons = run.polygons.iter();
    let mut next = || polygons.next().expect("the whole run has a polygon for each part listed");
    let mut overlay_calls = run.overlay_calls.iter().enumerate();
    let mut guard_count = 0;
    let mut listed_parts = Vec::new();
    for (index, (part, route)) in parts.iter().zip(routes).enumerate() {
        let listed = match route {
            Route::LeftOut => continue,
            Route::Dropped => {
                guard_count += 1;
                continue;
            }
            Route::Unchanged => {
                assert_same(next(), part);
                Listed::Unchanged
            }
            Route::Cut(cut) => {
                let polygon = next();
                assert_same(polygon, &cut);
                Listed::Cut(cut_rings(part, buffered, polygon))
            }
            Route::Overlay(reason) => {
                let (number, call) = overlay_calls.next().expect("the whole run asked for this overlay");
                assert_eq!(overlay_call_of(next()), Some(number), "overlay pieces are out of order");
                assert_call(call, part, buffered);
                Listed::Overlay(reason)
            }
        };
        listed_parts.push(ListedPart { index: index as u16, listed });
    }
    assert!(polygons.next().is_none(), "the whole run has polygons that no part accounts for");
    assert!(overlay_calls.next().is_none(), "the whole run asked for overlays that no part accounts for");
    assert_eq!(run.guard_count, u64::from(guard_count), "the whole run counted other drops");
    if listed_parts.is_empty() {
        Answer::Nothing { guard_count }
    } else {
        Answer::Listed { guard_count, parts: listed_parts }
    }
}

fn assert_same(of_whole: &Polygon<f64>, of_part: &Polygon<f64>) {
    assert!(same_rings(&rings_of(of_whole), &rings_of(of_part)), "{of_whole:?} of the whole run is not {of_part:?}");
}

/// The overlay was asked about the whole part and the buffered bounds.
fn assert_call(call: &OverlayCall, part: &Polygon<f64>, buffered: &TileBounds) {
    let TileBounds { lng_min: west, lat_min: south, lng_max: east, lat_max: north } = *buffered;
    let clip_box = vec![(west, south), (east, south), (east, north), (west, north), (west, south)];
    let rings_of_shapes = |shapes: &[Vec<Vec<[f64; 2]>>]| -> Vec<Ring> {
        shapes.iter().flatten().map(|contour| contour.iter().map(|&[x, y]| (x, y)).collect()).collect()
    };
    assert!(same_rings(&rings_of_shapes(&call.subject), &rings_of(part)), "an overlay was asked about another subject");
    assert!(same_rings(&rings_of_shapes(&call.clip), &[clip_box]), "an overlay was asked about another clip box");
}

fn same_rings(a: &[Ring], b: &[Ring]) -> bool {
    a.len() == b.len() && a.iter().zip(b).all(|(a, b)| same_numbers(&flat(a), &flat(b)))
}

#[cfg(test)]
mod tests {
    use super::*;
    use crate::convert::polygon_of;
    use formats::reason::Reason;

    const BOUNDS: TileBounds = TileBounds { lng_min: 0.0, lat_min: 0.0, lng_max: 10.0, lat_max: 10.0 };
    const HINTS: Hints = Hints { assume_simple: false, skip_boundary_fallback: false };

    /// The run on a square half outside, which the Rust overlays, with a route made up for it.
    fn put_together_with(route: Route) {
        let square = polygon_of(&[vec![(5.0, 5.0), (15.0, 5.0), (15.0, 8.0), (5.0, 8.0)]]);
        let run = run(&Geometry::Polygon(square.clone()), &BOUNDS, 0.0, HINTS);
        put_together(&[square], vec![route], &BOUNDS, run);
    }

    #[test]
    fn the_right_route_passes() {
        put_together_with(Route::Overlay(Reason::without_positions(4)));
    }

    #[test]
    #[should_panic(expected = "of the whole run is not")]
    fn another_polygon_is_noticed() {
        put_together_with(Route::Unchanged);
    }

    #[test]
    #[should_panic(expected = "polygons that no part accounts for")]
    fn a_polygon_too_many_is_noticed() {
        put_together_with(Route::LeftOut);
    }
}
