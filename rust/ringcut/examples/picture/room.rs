//! Where a label lies in an area, and in no other.

use crate::view::{Pixel, Place};

/// An area in pixels: what lies in an odd number of its rings.
pub type Shape = Vec<Vec<Pixel>>;

/// From a point to another on a horizontal line.
type Stretch = (f64, f64);

/// How far a label reaches up and down from its middle.
const HALF_HEIGHT: f64 = 7.0;

/// Pixels that a label leaves free to the sides of another area's corner, and above and below it, where that area's label may stand.
const ASIDE: f64 = 5.0;
const ABOVE: f64 = 20.0;

/// How many horizontal lines are tried on each side of the middle.
const LINES: i32 = 5;

/// Places for the middle of a label of this width in an area of which this is in the picture: where most room is to its sides, up to
/// its own width, and of those with the same room the nearest to the middle first.
pub fn places_in(shape: &Shape, others: &[&Shape], place: Place, width: f64) -> Vec<Pixel> {
    let step = place.height / f64::from(2 * LINES + 1);
    let mut places: Vec<(f64, Pixel)> = Vec::new();
    let mut lines: Vec<i32> = (-LINES..=LINES).collect();
    lines.sort_by_key(|line| line.abs());
    for line in lines {
        let y = place.top + place.height / 2.0 + f64::from(line) * step;
        let all = vec![(place.left, place.left + place.width)];
        for (from, to) in common(all, &room_at(shape, others, y)) {
            if to - from >= width {
                places.push(((to - from).min(3.0 * width), ((from + to) / 2.0, y)));
            }
        }
    }
    places.sort_by(|(room, _), (other_room, _)| other_room.round().total_cmp(&room.round()));
    places.into_iter().map(|(_, place)| place).collect()
}

/// Whether a label of this width whose middle is there lies in none of the areas.
pub fn is_apart((x, y): Pixel, width: f64, shapes: &[&Shape]) -> bool {
    let label = (x - width / 2.0, x + width / 2.0);
    let rows = [y - HALF_HEIGHT, y, y + HALF_HEIGHT];
    rows.iter().all(|&y| shapes.iter().all(|shape| common(vec![label], &stretches(shape, y)).is_empty()))
}

/// The stretches along which the height of a label whose middle is at `y` lies in the area, in none of the others and over no corner of
/// theirs: one that is very small may lie between the three lines that are looked at.
fn room_at(shape: &Shape, others: &[&Shape], y: f64) -> Vec<Stretch> {
    let [above, middle, below] = [y - HALF_HEIGHT, y, y + HALF_HEIGHT].map(|y| {
        let taken = others.iter().flat_map(|other| stretches(other, y));
        taken.fold(stretches(shape, y), without)
    });
    let room = common(common(above, &middle), &below);
    let corners = others.iter().flat_map(|other| other.iter().flatten());
    let hidden = corners.filter(|corner| (corner.1 - y).abs() < HALF_HEIGHT + ABOVE);
    hidden.map(|corner| (corner.0 - ASIDE, corner.0 + ASIDE)).fold(room, without)
}

/// The stretches of a horizontal line that lie in an area.
fn stretches(shape: &Shape, y: f64) -> Vec<Stretch> {
    let mut crossings: Vec<f64> = Vec::new();
    for ring in shape {
        let ends = ring.iter().zip(ring.iter().cycle().skip(1));
        let crossed = ends.filter(|(from, to)| (from.1 > y) != (to.1 > y));
        crossings.extend(crossed.map(|(from, to)| from.0 + (y - from.1) / (to.1 - from.1) * (to.0 - from.0)));
    }
    crossings.sort_by(f64::total_cmp);
    crossings.chunks_exact(2).map(|pair| (pair[0], pair[1])).collect()
}

fn without(stretches: Vec<Stretch>, (begin, end): Stretch) -> Vec<Stretch> {
    let pieces = stretches.into_iter().flat_map(|(from, to)| [(from, to.min(begin)), (from.max(end), to)]);
    pieces.filter(|(from, to)| from < to).collect()
}

/// What lies in stretches of both.
fn common(stretches: Vec<Stretch>, others: &[Stretch]) -> Vec<Stretch> {
    let pairs = stretches.into_iter().flat_map(|stretch| others.iter().map(move |&other| (stretch, other)));
    let pieces = pairs.map(|((from, to), (other_from, other_to))| (from.max(other_from), to.min(other_to)));
    pieces.filter(|(from, to)| from < to).collect()
}
