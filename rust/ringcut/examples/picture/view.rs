//! Which piece of the plane a picture shows, and where a point of it stands in the picture.
//!
//! The tile is shown whole. Around it is shown what the area and the buffer reach to, if that is not far; on a side where it is, the
//! picture ends nearer to the tile, and what goes on there is left out.

use ringcut::{cut_ring, room_for_ring, Bounds, RingBuffers};

/// x and y, in the plane.
pub type Point = [f64; 2];
/// To the right and down, in pixels.
pub type Pixel = (f64, f64);

/// A number of this magnitude or more is not drawn: an overlay doesn't take it either. Below, no product of two differences overflows.
const TOO_LARGE: f64 = 1e150;

/// How far beyond the tile, in its larger side, the picture goes: to where the area ends, if that is not further than the first; else
/// as far as the second says.
const NEAR: f64 = 1.5;
const CUT_OFF: f64 = 0.5;

/// How much longer one side of the drawing may be than the other. Beyond that it is stretched.
const LONGEST_SIDE: f64 = 3.0;
/// What is so much narrower than it is high, or lower than wide, is taken for a line, which no stretching widens.
const LINE: f64 = 1e-9;

/// Pixels around the drawing in which lines still show, and beyond which nothing is drawn at all.
const RIM: f64 = 8.0;
const BEYOND_RIM: f64 = 12.0;

pub fn is_placeable([x, y]: Point) -> bool {
    x.abs() < TOO_LARGE && y.abs() < TOO_LARGE
}

/// The bounds, if they are such as a rectangle has and are not too large to be drawn.
pub fn drawable(bounds: Bounds) -> Option<Bounds> {
    let Bounds { west, south, east, north } = bounds;
    (is_placeable([west, south]) && is_placeable([east, north]) && west <= east && south <= north).then_some(bounds)
}

/// The ring, cut to bounds by a ring call.
pub fn cut_to(bounds: Bounds, ring: &[Point]) -> Vec<Point> {
    let room = room_for_ring(ring.len());
    let (mut scratch, mut origin_scratch) = (vec![0.0; 2 * room], vec![0; room]);
    let (mut out, mut out_origins) = (vec![0.0; 2 * room], vec![0; room]);
    let lent = RingBuffers {
        scratch: &mut scratch,
        origin_scratch: &mut origin_scratch,
        out: &mut out,
        out_origins: &mut out_origins,
    };
    let count = cut_ring(ring.as_flattened(), bounds, lent).expect("the room is what a ring call asks for");
    out.chunks(2).take(count).map(|point| [point[0], point[1]]).collect()
}

/// The bounds of the points that can be placed, if there is one.
pub fn bounds_of(points: impl IntoIterator<Item = Point>) -> Option<Bounds> {
    let points = points.into_iter().filter(|&point| is_placeable(point));
    points.map(|[x, y]| Bounds { west: x, south: y, east: x, north: y }).reduce(union)
}

pub fn union(a: Bounds, b: Bounds) -> Bounds {
    Bounds {
        west: a.west.min(b.west),
        south: a.south.min(b.south),
        east: a.east.max(b.east),
        north: a.north.max(b.north),
    }
}

/// The upper left of a rectangle in the picture, and its size.
#[derive(Clone, Copy)]
pub struct Place {
    pub left: f64,
    pub top: f64,
    pub width: f64,
    pub height: f64,
}

pub struct View {
    window: Bounds,
    pub place: Place,
    /// How it is stretched, if a degree to the side is not as long in the picture as one upwards.
    pub stretched: Option<&'static str>,
}

impl View {
    /// Shows the tile, and around it what there is. The drawing is put into the middle of the room for it, and may end higher.
    pub fn new(tile: Bounds, all: Bounds, room: Place) -> View {
        let window = window(tile, all);
        let (width, height) = (window.east - window.west, window.north - window.south);
        let slenderness = (width / height).clamp(1.0 / LONGEST_SIDE, LONGEST_SIDE);
        let drawn_height = room.height.min(room.width / slenderness);
        let drawn_width = drawn_height * slenderness;
        let left = room.left + (room.width - drawn_width) / 2.0;
        let place = Place { left, top: room.top, width: drawn_width, height: drawn_height };
        let stretched = match width / height {
            narrow if narrow < slenderness => Some("wider"),
            wide if wide > slenderness => Some("higher"),
            _ => None,
        };
        View { window, place, stretched }
    }

    pub fn pixel(&self, [x, y]: Point) -> Pixel {
        let Bounds { west, south, east, north } = self.window;
        let right = (x - west) / (east - west);
        let down = (north - y) / (north - south);
        (self.place.left + right * self.place.width, self.place.top + down * self.place.height)
    }

    /// The lower left and the upper right of bounds.
    pub fn corners(&self, Bounds { west, south, east, north }: Bounds) -> (Pixel, Pixel) {
        (self.pixel([west, south]), self.pixel([east, north]))
    }

    pub fn shows(&self, [x, y]: Point) -> bool {
        let Bounds { west, south, east, north } = self.window;
        (west..=east).contains(&x) && (south..=north).contains(&y)
    }

    /// The bounds that are in the picture, if some of them are.
    pub fn shown(&self, bounds: Bounds) -> Option<Bounds> {
        let window = self.window;
        let west = bounds.west.max(window.west);
        let south = bounds.south.max(window.south);
        let east = bounds.east.min(window.east);
        let north = bounds.north.min(window.north);
        (west <= east && south <= north).then_some(Bounds { west, south, east, north })
    }

    /// The sides of the picture on which all of the bounds lie beyond it.
    pub fn sides_beyond(&self, bounds: Bounds) -> Vec<&'static str> {
        let window = self.window;
        let is_beyond = [
            ("north", bounds.south > window.north),
            ("south", bounds.north < window.south),
            ("east", bounds.west > window.east),
            ("west", bounds.east < window.west),
        ];
        is_beyond.into_iter().filter(|&(_, is_beyond)| is_beyond).map(|(side, _)| side).collect()
    }

    /// The sides on which the bounds go on beyond the picture. What differs by less than a pixel is a rounding.
    pub fn beyond(&self, bounds: Bounds) -> Vec<&'static str> {
        let Place { left, top, width, height } = self.place;
        let (west, north) = self.pixel([bounds.west, bounds.north]);
        let (east, south) = self.pixel([bounds.east, bounds.south]);
        let by = [
            ("north", top - north),
            ("south", south - (top + height)),
            ("east", east - (left + width)),
            ("west", left - west),
        ];
        by.into_iter().filter(|&(_, pixels)| pixels > 1.0).map(|(side, _)| side).collect()
    }

    /// Where lines show.
    pub fn rim(&self) -> Place {
        let Place { left, top, width, height } = self.place;
        Place { left: left - RIM, top: top - RIM, width: width + 2.0 * RIM, height: height + 2.0 * RIM }
    }

    /// The window with so many pixels around it.
    fn window_with(&self, pixels: f64) -> Bounds {
        let Bounds { west, south, east, north } = self.window;
        let aside = pixels * ((east - west) / self.place.width);
        let up = pixels * ((north - south) / self.place.height);
        Bounds { west: west - aside, south: south - up, east: east + aside, north: north + up }
    }

    /// The ring, cut to what is drawn. What the cut makes of it runs where nothing shows.
    pub fn cut(&self, ring: &[Point]) -> Vec<Pixel> {
        let around = self.window_with(BEYOND_RIM);
        cut_to(around, ring).into_iter().map(|point| self.pixel(clamped(around, point))).collect()
    }

    /// The stretches that are drawn of a line through these points: those of which something shows.
    pub fn stretches(&self, line: &[Point]) -> Vec<Vec<Pixel>> {
        let (around, rim) = (self.window_with(BEYOND_RIM), self.window_with(RIM));
        let mut stretches: Vec<Vec<Point>> = Vec::new();
        for edge in line.windows(2) {
            let Some([from, to]) = piece(around, [edge[0], edge[1]]) else { continue };
            match stretches.last_mut() {
                Some(stretch) if stretch.last() == Some(&from) => stretch.push(to),
                _ => stretches.push(vec![from, to]),
            }
        }
        stretches.retain(|stretch| stretch.windows(2).any(|edge| piece(rim, [edge[0], edge[1]]).is_some()));
        stretches.into_iter().map(|stretch| stretch.into_iter().map(|point| self.pixel(point)).collect()).collect()
    }
}

/// The piece of the plane that is shown.
fn window(tile: Bounds, all: Bounds) -> Bounds {
    let all = union(tile, all);
    let size = match larger_side(tile) {
        0.0 => larger_side(all),
        size => size,
    };
    // The very number where the area ends, so that a corner there is in the picture.
    let reach =
        |tile: f64, all: f64, cut_off: f64| if (all - tile).abs() <= NEAR * size { all } else { tile + cut_off };
    let cut_off = CUT_OFF * size;
    with_width_and_height(Bounds {
        west: reach(tile.west, all.west, -cut_off),
        south: reach(tile.south, all.south, -cut_off),
        east: reach(tile.east, all.east, cut_off),
        north: reach(tile.north, all.north, cut_off),
    })
}

fn larger_side(bounds: Bounds) -> f64 {
    (bounds.east - bounds.west).max(bounds.north - bounds.south)
}

/// The bounds, widened where they are a point or a line.
fn with_width_and_height(bounds: Bounds) -> Bounds {
    let Bounds { west, south, east, north } = bounds;
    let size = larger_side(bounds);
    let by = if size > 0.0 { size / (2.0 * LONGEST_SIDE) } else { 0.5 };
    // So much changes a number of this size.
    let at_least = |number: f64| by.max(1e-12 * number.abs()).max(f64::MIN_POSITIVE);
    let is_line = |length: f64| length <= LINE * size;
    let aside = if is_line(east - west) { at_least(west) } else { 0.0 };
    let up = if is_line(north - south) { at_least(south) } else { 0.0 };
    Bounds { west: west - aside, south: south - up, east: east + aside, north: north + up }
}

fn clamped(bounds: Bounds, [x, y]: Point) -> Point {
    [x.clamp(bounds.west, bounds.east), y.clamp(bounds.south, bounds.north)]
}

/// The piece of an edge that lies in the bounds, by Liang and Barsky.
fn piece(bounds: Bounds, [from, to]: [Point; 2]) -> Option<[Point; 2]> {
    let (mut first, mut last) = (0.0_f64, 1.0_f64);
    for (axis, low, high) in [(0, bounds.west, bounds.east), (1, bounds.south, bounds.north)] {
        let run = to[axis] - from[axis];
        if run == 0.0 {
            if !(low..=high).contains(&from[axis]) {
                return None;
            }
            continue;
        }
        let (one, other) = ((low - from[axis]) / run, (high - from[axis]) / run);
        first = first.max(one.min(other));
        last = last.min(one.max(other));
    }
    let at = |share: f64| match share {
        0.0 => from,
        1.0 => to,
        _ => [0, 1].map(|axis| from[axis] + share * (to[axis] - from[axis])),
    };
    // Where the numbers are of very different sizes, a rounding can put an end out of the bounds.
    (first <= last).then(|| [first, last].map(|share| clamped(bounds, at(share))))
}
