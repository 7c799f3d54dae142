//! Rings about the corners of bounds, not closed: vertices on the lines and in the corners, edges along the lines and through the
//! corners. What one line makes of them equals vertices of the ring and lies on another line, so that only its origin tells it apart.

use formats::{Bounds, Coord, Part, Ring};

use crate::holes::across_east;
use crate::rng::Rng;

pub fn corner_ring(bounds: Bounds, rng: &mut Rng) -> Ring {
    match rng.below(8) {
        0 => overflowing(bounds, rng),
        1 | 2 => around(bounds, rng),
        3 => spike(bounds, rng),
        _ => scattered(bounds, rng),
    }
}

/// An exterior that is cut without an issue, and such rings as holes, which are not looked at: in exteriors a crossing that equals
/// the vertex beside it is a repeated corner.
pub fn with_corner_holes(bounds: Bounds, rng: &mut Rng) -> Part {
    let holes = 1 + rng.below(4);
    let mut part = vec![across_east(bounds, rng)];
    part.extend((0..holes).map(|_| corner_ring(bounds, rng)));
    part
}

/// A place by halves of the way from west to east and from south to north; a zero is now and then a negative one.
fn place([west, south, east, north]: Bounds, across: i64, along: i64, rng: &mut Rng) -> Coord {
    let mut number = |low: f64, high: f64, halves: i64| {
        let number = low + halves as f64 * ((high - low) / 2.0);
        if number == 0.0 && rng.once_in(6) {
            -number
        } else {
            number
        }
    };
    (number(west, east, across), number(south, north, along))
}

/// A few vertices in any places up to the width of the bounds around them.
fn scattered(bounds: Bounds, rng: &mut Rng) -> Ring {
    let vertices = rng.pick(&[2, 3, 3, 4, 4, 4, 5, 6, 8]);
    (0..vertices)
        .map(|_| {
            let (across, along) = (rng.between(-2, 4), rng.between(-2, 4));
            place(bounds, across, along, rng)
        })
        .collect()
}

/// The corners in turn, each as it is, moved outwards or moved inwards, from any of them on and either way around.
fn around(bounds: Bounds, rng: &mut Rng) -> Ring {
    let mut ring: Ring = [(0, 0), (2, 0), (2, 2), (0, 2)]
        .into_iter()
        .map(|(across, along)| {
            let outwards = rng.pick(&[0, 0, 1, 1, 2, -1]);
            let moved = |halves: i64| halves + outwards * (halves - 1);
            place(bounds, moved(across), moved(along), rng)
        })
        .collect();
    if rng.once_in(2) {
        ring.reverse();
    }
    from_any_vertex(ring, rng)
}

/// There and back over a vertex on a line or in a corner, to one beyond.
fn spike(bounds: Bounds, rng: &mut Rng) -> Ring {
    let (across, along) = rng.pick(&[(0, 1), (2, 1), (1, 0), (1, 2), (0, 0), (2, 0), (0, 2), (2, 2)]);
    let beyond = |halves: i64| 2 * halves - 1;
    let (foot, tip) = (place(bounds, across, along, rng), place(bounds, beyond(across), beyond(along), rng));
    let (inside, aside) = (place(bounds, 1, 1, rng), place(bounds, along, across, rng));
    from_any_vertex(vec![inside, foot, tip, foot, aside], rng)
}

/// Two vertices so far apart that their difference overflows, and some inside: a crossing between the two has a NaN, and where the
/// cut begins with it, the ring is closed once more.
fn overflowing(bounds: Bounds, rng: &mut Rng) -> Ring {
    let far = rng.pick(&[1e308, 1.5e308]);
    let further = rng.pick(&[1.7e308, f64::MAX]);
    let (x, y) = rng.pick(&[(1.0, 1.0), (1.0, -1.0), (-1.0, 1.0), (-1.0, -1.0)]);
    let mut ring: Ring = vec![(x * far, y * far), (-x * further, -y * further)];
    let [west, south, east, north] = bounds;
    for _ in 0..rng.pick(&[1, 1, 2]) {
        let (across, along) = (rng.fraction(), rng.fraction());
        ring.push((west + across * (east - west), south + along * (north - south)));
    }
    from_any_vertex(ring, rng)
}

fn from_any_vertex(mut ring: Ring, rng: &mut Rng) -> Ring {
    let start = rng.below(ring.len());
    ring.rotate_left(start);
    ring
}
