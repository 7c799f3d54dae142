//! Rings by what a cut makes of them: polygons across a bound with holes that are cut to none and holes that stay.

use formats::{Bounds, Part, Ring};

use crate::rng::Rng;

/// An exterior across the east bound, and holes in any order.
pub fn with_holes(bounds: Bounds, rng: &mut Rng) -> Part {
    let mut part = vec![across_east(bounds, rng)];
    for _ in 0..1 + rng.below(5) {
        part.push(if rng.once_in(2) { beyond_a_corner(bounds, rng) } else { inside(bounds, rng) });
    }
    part
}

/// A triangle that misses the bounds, though its rectangle does not: some of it is left of the passes Left and Right, and
/// Bottom or Top leaves none.
pub fn beyond_a_corner([west, south, east, north]: Bounds, rng: &mut Rng) -> Ring {
    let reach = rng.pick(&[0.1, 0.25, 0.4]);
    let (width, height) = (reach * (east - west), reach * (north - south));
    let (x, outwards_x) = rng.pick(&[(west, -width), (east, width)]);
    let (y, outwards_y) = rng.pick(&[(south, -height), (north, height)]);
    let vertex = |across: f64, along: f64| (x + across * outwards_x, y + along * outwards_y);
    from_any_vertex(vec![vertex(-1.0, 2.0), vertex(2.0, -1.0), vertex(2.0, 2.0)], rng)
}

/// A rectangle that is cut without an issue.
pub fn across_east(bounds: Bounds, rng: &mut Rng) -> Ring {
    let low = rng.pick(&[0.125, 0.25]);
    rectangle(bounds, [low, low, 1.5, 0.75], rng)
}

fn inside(bounds: Bounds, rng: &mut Rng) -> Ring {
    let (west, south) = (0.3 + 0.3 * rng.fraction(), 0.3 + 0.3 * rng.fraction());
    rectangle(bounds, [west, south, west + 0.1, south + 0.1], rng)
}

/// A rectangle whose sides are shares of the way from west to east and from south to north.
fn rectangle([west, south, east, north]: Bounds, [left, bottom, right, top]: [f64; 4], rng: &mut Rng) -> Ring {
    let x = |share: f64| west + share * (east - west);
    let y = |share: f64| south + share * (north - south);
    from_any_vertex(vec![(x(left), y(bottom)), (x(right), y(bottom)), (x(right), y(top)), (x(left), y(top))], rng)
}

/// The ring from any of its vertices on, closed or not.
fn from_any_vertex(mut ring: Ring, rng: &mut Rng) -> Ring {
    let start = rng.below(ring.len());
    ring.rotate_left(start);
    if rng.once_in(2) {
        ring.push(ring[0]);
    }
    ring
}
