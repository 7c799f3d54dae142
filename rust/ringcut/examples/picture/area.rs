//! The area of a frame as points, and its corners that no picture can show.

use std::fmt::{self, Display, Formatter};

use ringcut::Frame;

use crate::canvas::Canvas;
use crate::legend::Entry;
use crate::room::Shape;
use crate::shared::{number, ring};
use crate::view::{bounds_of, is_placeable, Point, View};

/// The class of the circle around an area that is too small to be seen, in the legend too, and its radius in pixels.
pub const CIRCLED: &str = "speck";
pub const RADIUS: f64 = 5.0;

/// An area with fewer pixels to the side and upwards is too small to be seen.
const SPECK: f64 = 4.0;

/// A ring as it was sent.
pub type Ring = Vec<Point>;

/// The parts of a frame, each with its rings, exterior first.
pub fn parts_of(frame: &Frame) -> Vec<Vec<Ring>> {
    frame.parts().map(|rings| rings.map(|ring| ring.iter().collect()).collect()).collect()
}

/// A corner that is not finite or too large to be drawn. As text it says which, and where it stands.
pub struct Misfit {
    pub part: usize,
    ring: usize,
    corner: usize,
    point: Point,
}

impl Misfit {
    pub fn is_finite(&self) -> bool {
        self.point.iter().all(|number| number.is_finite())
    }

    /// Which corner it is. Holes are counted from 1: ring 0 is the exterior.
    pub fn name(&self) -> String {
        let hole = if self.ring > 0 { format!("hole {} of ", self.ring) } else { String::new() };
        format!("corner {} of {hole}part {}", self.corner, self.part)
    }
}

impl Display for Misfit {
    fn fmt(&self, f: &mut Formatter) -> fmt::Result {
        let [x, y] = self.point.map(number::text);
        let why = if self.is_finite() { "too large to be drawn" } else { "not finite" };
        write!(f, "{} is {why}: ({x},{y})", self.name())
    }
}

pub fn misfits_of(parts: &[Vec<Ring>]) -> Vec<Misfit> {
    let mut misfits = Vec::new();
    for (part, rings) in parts.iter().enumerate() {
        for (ring, corners) in rings.iter().enumerate() {
            let corners = corners.iter().enumerate().filter(|(_, &point)| !is_placeable(point));
            misfits.extend(corners.map(|(corner, &point)| Misfit { part, ring, corner, point }));
        }
    }
    misfits
}

/// The area between rings, exterior first, as far as it shows. A ring with a corner that can't be placed is left out, and where that is
/// the exterior, there is no area.
pub fn shape(view: &View, rings: &[Ring]) -> Shape {
    match rings.first() {
        Some(exterior) if is_whole(exterior) => {
            rings.iter().filter(|ring| is_whole(ring)).map(|ring| view.cut(ring)).collect()
        }
        _ => Vec::new(),
    }
}

/// Draws the area between rings, exterior first. Answers the legend's entry for it, if any of it is in the picture.
pub fn draw(canvas: &mut Canvas, view: &View, entry: Entry, rings: &[Ring]) -> Option<Entry> {
    canvas.area(entry.0, &shape(view, rings)).then_some(entry)
}

pub fn is_whole(ring: &Ring) -> bool {
    ring.iter().all(|&point| is_placeable(point))
}

/// Draws the outlines of rings, without edges that have a corner that can't be placed. Answers whether any is in the picture.
pub fn draw_outlines(canvas: &mut Canvas, view: &View, class: &str, rings: &[Ring]) -> bool {
    let mut lines = Vec::new();
    for ring in rings {
        ring::closed(ring).split(|&point| !is_placeable(point)).for_each(|line| lines.extend(view.stretches(line)));
    }
    canvas.lines(class, &lines)
}

/// Puts a circle around an area that is too small to be seen. How large one is with a corner that can't be placed is not known.
pub fn draw_speck(canvas: &mut Canvas, view: &View, rings: &[Ring]) -> Option<Entry> {
    if !rings.iter().all(is_whole) {
        return None;
    }
    let bounds = bounds_of(rings.iter().flatten().copied())?;
    let ((left, bottom), (right, top)) = view.corners(bounds);
    if right - left >= SPECK || bottom - top >= SPECK {
        return None;
    }
    let ((left, bottom), (right, top)) = view.corners(view.shown(bounds)?);
    canvas.circle(CIRCLED, ((left + right) / 2.0, (top + bottom) / 2.0), RADIUS);
    Some((CIRCLED, "a very small area"))
}
