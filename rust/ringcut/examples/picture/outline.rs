//! The outline of a cut, drawn otherwise where it is a border than where it runs along the tile's edge and is none; and its corners,
//! drawn otherwise where they were sent than where a bound made them.

use std::collections::BTreeSet;

use ringcut::{is_along_tile, Bounds, Origin, Vertex};

use crate::canvas::Canvas;
use crate::legend::Entry;
use crate::view::{is_placeable, Point, View};

/// The classes of the outline and of its corners, in the legend too.
pub const BORDER: &str = "border";
pub const EDGE: &str = "edge";
pub const SENT: &str = "sent";
pub const MADE: &str = "made";

/// Pixels around a corner, and around each where there are more than so many.
pub const RADIUS: f64 = 3.5;
const MANY: usize = 60;
const SMALL_RADIUS: f64 = 2.0;

const ENTRIES: [Entry; 4] =
    [(BORDER, "border"), (EDGE, "cut, not a border"), (SENT, "corner as sent"), (MADE, "made by a bound")];

/// Draws the outlines of rings that were cut at these bounds, the buffer's. Answers the legend's entries for what is in the picture.
pub fn draw(canvas: &mut Canvas, view: &View, bounds: Bounds, rings: &[Vec<Vertex>]) -> Vec<Entry> {
    let radius = if rings.iter().flatten().count() > MANY { SMALL_RADIUS } else { RADIUS };
    let mut drawn = BTreeSet::new();
    for ring in rings {
        for (class, stretch) in stretches(bounds, ring) {
            if canvas.lines(class, &view.stretches(&stretch)) {
                drawn.insert(class);
            }
        }
        for &corner in ring.iter().filter(|&&corner| view.shows(point(corner))) {
            let class = if matches!(corner.origin, Origin::Line(_)) { MADE } else { SENT };
            canvas.circle(class, view.pixel(point(corner)), radius);
            drawn.insert(class);
        }
    }
    ENTRIES.into_iter().filter(|(class, _)| drawn.contains(class)).collect()
}

pub fn point(corner: Vertex) -> Point {
    [corner.x, corner.y]
}

/// A cut ring in stretches of one class, each as long as it can be but for where the ring begins. An edge that can't be placed is left
/// out.
fn stretches(bounds: Bounds, ring: &[Vertex]) -> Vec<(&'static str, Vec<Point>)> {
    let mut stretches: Vec<(&str, Vec<Point>)> = Vec::new();
    for edge in ring.windows(2) {
        let [from, to] = [point(edge[0]), point(edge[1])];
        if !is_placeable(from) || !is_placeable(to) {
            continue;
        }
        let class = if is_along_tile(bounds, edge[0], edge[1]) { EDGE } else { BORDER };
        match stretches.last_mut() {
            Some((last, points)) if *last == class && points.last() == Some(&from) => points.push(to),
            _ => stretches.push((class, vec![from, to])),
        }
    }
    stretches
}
