//! The frame entry against decode, `clip_geometry_simple` and encode in Rust, on frames of one ring or of many parts. The port answers
//! with origins, the Rust without.

use std::hint::black_box;

use baseline::Cutter;
use formats::answer::Answer;
use formats::frame::{Frame, LONGEST, MULTIPOLYGON, POLYGON};
use formats::Ring;
use geo::Coord;
use port::calls;

use crate::outlines::{apart, astride, inside, BOUNDS};
use crate::table::Row;
use crate::timing::medians;

/// How many coordinates each part's ring has, the closing one counted, and how many parts there are.
pub struct Size {
    pub name: &'static str,
    parts: usize,
    coordinates: usize,
}

/// The last two are frames of 5,120 bytes, or nearly.
pub const SIZES: [Size; 4] = [
    Size { name: "5 coordinates", parts: 1, coordinates: 5 },
    Size { name: "60 coordinates", parts: 1, coordinates: 60 },
    Size { name: "317 coordinates", parts: 1, coordinates: 317 },
    Size { name: "60 parts of 5", parts: 60, coordinates: 5 },
];

/// What the parts look like, and the first byte of the answer.
pub struct Case {
    pub name: &'static str,
    flags: u8,
    outline: fn(usize) -> Vec<Coord<f64>>,
    answer: u8,
}

pub const CASES: [Case; 5] = [
    Case { name: "unchanged, flags 3", flags: 3, outline: inside, answer: 2 },
    Case { name: "unchanged, flags 0", flags: 0, outline: inside, answer: 2 },
    Case { name: "cut, flags 3", flags: 3, outline: astride, answer: 3 },
    Case { name: "nothing, flags 0", flags: 0, outline: apart, answer: 0 },
    Case { name: "dropped, flags 0", flags: 0, outline: with_a_nan, answer: 1 },
];

/// The last vertex is not a number.
fn with_a_nan(n: usize) -> Vec<Coord<f64>> {
    let mut ring = inside(n);
    ring[n - 1].y = f64::NAN;
    ring
}

pub fn measure() {
    for size in &SIZES {
        for case in &CASES {
            row(size, case).print();
        }
    }
}

fn row(size: &Size, case: &Case) -> Row {
    let (mut rust, mut port) = (Sides::new(size, case), Sides::new(size, case));
    let times = medians(&mut [&mut || rust.rust(), &mut || port.port()]);
    Row {
        workload: "frame entry",
        size: size.name.to_string(),
        case: case.name.to_string(),
        rust: times[0],
        port: times[1],
        clearing: None,
    }
}

/// Both sides with what they write to, and the frame.
pub struct Sides {
    frame: Vec<u8>,
    cutter: Cutter,
    answer: Vec<u8>,
    out: Vec<u8>,
    /// Of the port's answer in `out`.
    length: usize,
}

impl Sides {
    /// Both have answered the frame once, with the same bytes but for the origins.
    pub fn new(size: &Size, case: &Case) -> Sides {
        let frame = frame_of(size, case);
        let bytes = frame.encode();
        assert!(bytes.len() <= LONGEST);
        let mut sides = Sides {
            frame: bytes,
            cutter: Cutter::default(),
            answer: Vec::new(),
            out: vec![0; frame.room()],
            length: 0,
        };
        sides.rust();
        sides.port();
        let without_origins = without_origins(&sides.out[..sides.length]);
        assert_eq!(without_origins, sides.answer, "{}, {}", size.name, case.name);
        assert_eq!(sides.out[0], case.answer, "{}, {}", size.name, case.name);
        sides
    }

    pub fn rust(&mut self) {
        self.cutter.cut(black_box(&self.frame), &mut self.answer).expect("the frame is accepted");
    }

    pub fn port(&mut self) {
        let code = calls::frame(black_box(&self.frame), &mut self.out);
        self.length = usize::try_from(code).expect("the frame is accepted");
    }
}

/// An answer as the Rust gives it.
pub fn without_origins(answer: &[u8]) -> Vec<u8> {
    match Answer::decode(answer) {
        Some(Ok(decoded)) => decoded.encode_without_origins(),
        _ => answer.to_vec(),
    }
}

/// The bytes of the frame of a row.
pub fn frame_bytes(size: &Size, case: &Case) -> Vec<u8> {
    frame_of(size, case).encode()
}

fn frame_of(size: &Size, case: &Case) -> Frame {
    let mut ring: Ring = (case.outline)(size.coordinates - 1).iter().map(|c| (c.x, c.y)).collect();
    ring.push(ring[0]);
    let kind = if size.parts == 1 { POLYGON } else { MULTIPOLYGON };
    Frame { kind, flags: case.flags, bounds: BOUNDS, buffer: 0.0, parts: vec![vec![ring]; size.parts] }
}
