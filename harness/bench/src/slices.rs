//! The slice call against the Rust's `clip_polygon`, which has no origins. It clears nothing, and the library has no call that doesn't, so
//! the clearing is timed by itself, by a call that does little else: on rings as long as these, dropped at its first
//! coordinate. What is left of the whole call without it stands beside the Rust's time. Such a call clears all the room of the
//! output, and a cut only what it leaves of that: its share in the whole call is a little less. Where an overlay is wanted the
//! port only says so: the Rust's time is without its overlay, timed by itself too, which copies the polygon for the stand-in.

use std::hint::black_box;

use formats::calls::{SliceAfter, MOST_COORDINATES};
use formats::room::most_cut;
use geo::{Coord, Geometry, LineString, Polygon};
use i_overlay::record::take_calls;
use port::calls::{self, Flags};
use tylertoo::clip::opened::clip_polygon;
use tylertoo::diagnostics::Diagnostics;
use tylertoo::ioverlay_clip::clip_polygon_ioverlay;
use tylertoo::tile::TileBounds;

use crate::outlines::{apart, astride, inside, BOUNDS};
use crate::table::{whole, Clearing, Row};
use crate::timing::{medians, medians_in_step};

/// Document 01's numbers of a polygon's answers.
const NOTHING: i64 = 0;
const DROPPED: i64 = 1;
const UNCHANGED: i64 = 2;
const CUT: i64 = 4;
const BRIDGE_ON_THE_RIGHT: i64 = 5 + 256 * 4;

/// How many rings a polygon has, all the same, and how many coordinates each of them, the closing one counted.
#[derive(Clone, Copy)]
pub struct Size {
    rings: usize,
    coordinates: usize,
}

impl Size {
    const fn of_one_ring(coordinates: usize) -> Size {
        Size { rings: 1, coordinates }
    }

    pub fn name(&self) -> String {
        let coordinates = whole(self.coordinates as f64);
        match self.rings {
            1 => format!("{coordinates} vertices"),
            rings => format!("{rings} rings of {coordinates}"),
        }
    }
}

/// What the rings look like, and the answer, of a cut without its count of rings.
pub struct Case {
    pub name: &'static str,
    flags: u8,
    outline: fn(usize) -> Vec<Coord<f64>>,
    answer: i64,
}

const TIMED: [Case; 4] = [
    Case { name: "inside, flags 1", flags: 1, outline: inside, answer: UNCHANGED },
    Case { name: "inside, flags 0", flags: 0, outline: inside, answer: UNCHANGED },
    Case { name: "half outside, flags 3", flags: 3, outline: astride, answer: CUT },
    Case { name: "half outside, flags 0", flags: 0, outline: astride, answer: BRIDGE_ON_THE_RIGHT },
];

/// The clearing by itself.
const DROPPED_AT_FIRST: Case =
    Case { name: "dropped at its first coordinate", flags: 0, outline: with_a_nan_first, answer: DROPPED };

/// The last has as many coordinates as the one before and needs an eighth of its scratch and order slices.
pub const SIZES: [Size; 3] = [Size::of_one_ring(64), Size::of_one_ring(1_024), Size { rings: 8, coordinates: 128 }];

/// Those that callgrind counts.
pub const COUNTED: [Case; 4] = [
    Case { name: "cut, flags 3", flags: 3, outline: astride, answer: CUT },
    Case { name: "unchanged, flags 3", flags: 3, outline: inside, answer: UNCHANGED },
    Case { name: "nothing, flags 0", flags: 0, outline: apart, answer: NOTHING },
    DROPPED_AT_FIRST,
];

fn with_a_nan_first(n: usize) -> Vec<Coord<f64>> {
    let mut ring = inside(n);
    ring[0].x = f64::NAN;
    ring
}

pub fn measure() {
    for vertices in [64, 1_024, MOST_COORDINATES] {
        for case in &TIMED {
            row(Size::of_one_ring(vertices), case).print();
        }
    }
    for size in SIZES {
        dropped_row(size).print();
    }
}

/// Both sides with the polygon, and what the port's call writes to.
pub struct Sides {
    polygon: Polygon<f64>,
    bounds: TileBounds,
    flags: u8,
    diagnostics: Diagnostics,
    coords: Vec<f64>,
    lengths: Vec<u32>,
    lent: SliceAfter,
}

impl Sides {
    /// Both have answered the call once; the port's answer is the case's.
    pub fn new(size: Size, case: &Case) -> Sides {
        let rings = vec![lent_ring((case.outline)(size.coordinates - 1)); size.rings];
        let mut lines = rings.iter().cloned().map(LineString::new);
        let exterior = lines.next().expect("there is a ring");
        let mut sides = Sides {
            polygon: Polygon::new(exterior, lines.collect()),
            bounds: TileBounds::new(BOUNDS[0], BOUNDS[1], BOUNDS[2], BOUNDS[3]),
            flags: case.flags,
            diagnostics: Diagnostics::default(),
            coords: rings.iter().flatten().flat_map(|c| [c.x, c.y]).collect(),
            lengths: rings.iter().map(|ring| ring.len() as u32).collect(),
            lent: lent_for(size),
        };
        let expected = if case.answer == CUT { CUT + 65_536 * size.rings as i64 } else { case.answer };
        assert_eq!(sides.answer_of_port(), expected, "{}, {}", size.name(), case.name);
        take_calls();
        let is_some = sides.clip().is_some();
        assert_eq!(is_some, ![NOTHING, DROPPED].contains(&case.answer), "{}, {}", size.name(), case.name);
        // The stand-in keeps each overlay call until it is taken.
        assert_eq!(!take_calls().is_empty(), case.answer == BRIDGE_ON_THE_RIGHT, "{}, {}", size.name(), case.name);
        sides
    }

    pub fn rust(&mut self) {
        black_box(self.clip());
        take_calls();
    }

    pub fn port(&mut self) {
        black_box(self.answer_of_port());
    }

    /// What the Rust does for the overlay that the port only asks for.
    fn overlay(&self) {
        black_box(clip_polygon_ioverlay(black_box(&self.polygon), &self.bounds, &self.diagnostics));
        take_calls();
    }

    fn clip(&self) -> Option<Geometry<f64>> {
        let (assume_simple, skip_boundary_fallback) = (self.flags & 1 != 0, self.flags & 2 != 0);
        let Sides { polygon, bounds, diagnostics, .. } = self;
        clip_polygon(black_box(polygon), bounds, assume_simple, skip_boundary_fallback, diagnostics)
    }

    fn answer_of_port(&mut self) -> i64 {
        let flags = Flags { assume_simple: self.flags & 1, skip_boundary_fallback: self.flags & 2 };
        let Sides { coords, lengths, lent, .. } = self;
        calls::polygon(flags, &BOUNDS, 0.0, black_box(coords), lengths, calls::lent(lent))
    }
}

/// A ring as it is lent: closed, unless it begins with a NaN. No closing coordinate equals that, so the call would close it once
/// more and ask for more room.
fn lent_ring(mut ring: Vec<Coord<f64>>) -> Vec<Coord<f64>> {
    if !ring[0].x.is_nan() {
        ring.push(ring[0]);
    }
    ring
}

/// The slices of one call to write to, exactly as long as the rings ask.
fn lent_for(size: Size) -> SliceAfter {
    let room = most_cut(size.coordinates);
    SliceAfter {
        answer: 0,
        scratch: vec![0.0; 2 * room],
        origin_scratch: vec![0; room],
        order: vec![0; room],
        out: vec![0.0; 2 * room * size.rings],
        out_lengths: vec![0; size.rings],
        out_origins: vec![0; room * size.rings],
    }
}

fn row(size: Size, case: &Case) -> Row {
    let [mut rust, overlaid, mut call] = [(); 3].map(|()| Sides::new(size, case));
    let mut cleared = Sides::new(size, &DROPPED_AT_FIRST);
    let wants_overlay = case.answer == BRIDGE_ON_THE_RIGHT;
    let times = medians_in_step(&mut [
        &mut || rust.rust(),
        &mut || {
            if wants_overlay {
                overlaid.overlay();
            }
        },
        &mut || cleared.port(),
        &mut || call.port(),
    ]);
    let overlay = if wants_overlay { times[1] } else { 0.0 };
    let (alone, whole_call) = (times[2], times[3]);
    Row {
        workload: "slice call",
        size: size.name(),
        case: case.name.to_string(),
        rust: times[0] - overlay,
        port: whole_call - alone,
        clearing: Some(Clearing { alone, whole_call }),
    }
}

fn dropped_row(size: Size) -> Row {
    let [mut rust, mut port] = [(); 2].map(|()| Sides::new(size, &DROPPED_AT_FIRST));
    let times = medians(&mut [&mut || rust.rust(), &mut || port.port()]);
    Row {
        workload: "slice call",
        size: size.name(),
        case: DROPPED_AT_FIRST.name.to_string(),
        rust: times[0],
        port: times[1],
        clearing: None,
    }
}
