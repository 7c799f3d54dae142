//! Frames of every kind, with the room lent for the answer.

use formats::frame::{Frame, LEAST_ROOM, LONGEST, MOST_PARTS, MULTIPOLYGON, POLYGON, SHORTEST};
use formats::Part;

use crate::damage::damage;
use crate::limits::at_a_limit;
use crate::rng::Rng;
use crate::scene::{lone_coordinate, Scene, Style};

#[derive(Clone, Copy, Debug, PartialEq, Eq)]
pub enum Kind {
    /// Whole frames drawn in one style.
    Drawn(Style),
    /// Many small parts: empty rings, single coordinates, NaN coordinates, rings of a few grid vertices.
    Parts,
    /// Frames of the other kinds with bytes changed, cut off or added.
    Damaged,
    /// Every limit of a frame from both sides.
    Limits,
}

impl Kind {
    pub const ALL: [Kind; 14] = [
        Kind::Drawn(Style::Grid),
        Kind::Drawn(Style::Outlines),
        Kind::Drawn(Style::Near),
        Kind::Drawn(Style::Huge),
        Kind::Drawn(Style::Bits),
        Kind::Drawn(Style::Tiles),
        Kind::Drawn(Style::Long),
        Kind::Drawn(Style::Collinear),
        Kind::Parts,
        Kind::Damaged,
        Kind::Limits,
        Kind::Drawn(Style::Tangled),
        Kind::Drawn(Style::Corners),
        Kind::Drawn(Style::Shallow),
    ];

    pub fn name(self) -> &'static str {
        match self {
            Kind::Drawn(Style::Grid) => "grid",
            Kind::Drawn(Style::Outlines) => "outlines",
            Kind::Drawn(Style::Near) => "near",
            Kind::Drawn(Style::Huge) => "huge",
            Kind::Drawn(Style::Bits) => "bits",
            Kind::Drawn(Style::Tiles) => "tiles",
            Kind::Drawn(Style::Long) => "long",
            Kind::Drawn(Style::Collinear) => "collinear",
            Kind::Drawn(Style::Tangled) => "tangled",
            Kind::Drawn(Style::Corners) => "corners",
            Kind::Drawn(Style::Shallow) => "shallow",
            Kind::Parts => "parts",
            Kind::Damaged => "damaged",
            Kind::Limits => "limits",
        }
    }

    fn stream(self) -> u64 {
        Kind::ALL.iter().position(|&kind| kind == self).expect("every kind is listed") as u64
    }
}

/// A frame's bytes, and the bytes of output lent for its answer.
#[derive(Clone, Debug)]
pub struct Specimen {
    pub frame: Vec<u8>,
    pub room: usize,
}

/// More room than any frame asks for.
pub const AMPLE: usize = 60_000;

pub fn frame(kind: Kind, seed: u64, index: u64) -> Specimen {
    let rng = &mut Rng::new(seed, kind.stream(), index);
    match kind {
        Kind::Drawn(style) => with_room(drawn(style, rng).encode(), MOSTLY_AMPLE, rng),
        Kind::Parts => with_room(many_parts(rng).encode(), MOSTLY_AMPLE, rng),
        Kind::Damaged => with_room(damage(whole(rng).encode(), rng), MOSTLY_AMPLE, rng),
        Kind::Limits => with_room(at_a_limit(rng), SELDOM_AMPLE, rng),
    }
}

/// Keeps the random bytes of a seed apart from its frames.
const RANDOM_STREAM: u64 = 240;

/// Random bytes, most of them behind a head that a frame may have.
pub fn random_frame(seed: u64, index: u64) -> Vec<u8> {
    let rng = &mut Rng::new(seed, RANDOM_STREAM, index);
    let mut bytes: Vec<u8> = (0..rng.below(160)).map(|_| rng.bits() as u8).collect();
    if !rng.once_in(4) && bytes.len() >= SHORTEST {
        bytes[0] = rng.pick(&[POLYGON, MULTIPOLYGON]);
        bytes[1] = rng.below(4) as u8;
        let counts = bytes[SHORTEST - 2..].chunks_mut(2).take(rng.below(5));
        counts.for_each(|count| count.copy_from_slice(&[rng.below(4) as u8, 0][..count.len()]));
    }
    bytes
}

/// A frame of any style, or of many parts.
pub fn whole(rng: &mut Rng) -> Frame {
    if rng.once_in(4) {
        many_parts(rng)
    } else {
        drawn(rng.pick(&Style::ALL), rng)
    }
}

pub fn drawn(style: Style, rng: &mut Rng) -> Frame {
    let scene = Scene::new(style, rng);
    let kind = rng.pick(&[POLYGON, MULTIPOLYGON]);
    let most = if style == Style::Long { 2 } else { 4 };
    let parts = if kind == POLYGON { 1 } else { rng.below(most + 1) };
    let parts = within_a_frame((0..parts).map(|_| scene.part(rng)));
    let mut flags = if is_vouched_for(style, rng) { 3 } else { rng.below(4) as u8 };
    if is_looked_at(style, rng) {
        flags &= 2;
    }
    Frame { kind, flags, bounds: scene.bounds, buffer: scene.buffer, parts }
}

/// Whether a specimen has both flags whatever else is drawn: of rings about the corners few others are cut.
pub fn is_vouched_for(style: Style, rng: &mut Rng) -> bool {
    style == Style::Corners && rng.once_in(2)
}

/// Whether edges are looked at for crossings whatever else is drawn: of rings with shallow pairs that is the point.
pub fn is_looked_at(style: Style, rng: &mut Rng) -> bool {
    style == Style::Shallow && !rng.once_in(3)
}

fn many_parts(rng: &mut Rng) -> Frame {
    let scene = Scene::new(Style::Grid, rng);
    let count = rng.pick(&[5, 20, 60, MOST_PARTS - 1, MOST_PARTS]);
    let with_bits = rng.once_in(3);
    let parts = within_a_frame((0..count).map(|_| small_part(&scene, with_bits, count, rng)));
    Frame { kind: MULTIPOLYGON, flags: rng.below(4) as u8, bounds: scene.bounds, buffer: scene.buffer, parts }
}

fn small_part(scene: &Scene, with_bits: bool, count: usize, rng: &mut Rng) -> Part {
    match rng.below(6) {
        0 => scene.part(rng),
        1 if count < 100 => vec![scene.ring(rng)],
        2 if with_bits => vec![vec![lone_coordinate(rng)]],
        3 => vec![Vec::new(), Vec::new()],
        _ => vec![Vec::new()],
    }
}

/// The parts from the front that fit a frame; the first always does, cut short if need be.
fn within_a_frame(parts: impl Iterator<Item = Part>) -> Vec<Part> {
    let mut left = LONGEST - SHORTEST;
    let mut fitting: Vec<Part> = Vec::new();
    for mut part in parts {
        let size = |part: &Part| 2 + part.iter().map(|ring| 2 + 16 * ring.len()).sum::<usize>();
        while size(&part) > left && part.len() > 1 {
            part.pop();
        }
        if size(&part) > left {
            break;
        }
        left -= size(&part);
        fitting.push(part);
    }
    fitting
}

/// How many choices of room there are; all but four are ample.
const MOSTLY_AMPLE: usize = 16;
const SELDOM_AMPLE: usize = 5;

/// Ample room, or the room the frame asks for from both sides, or hardly any. A frame that is refused unread asks for the
/// least.
fn with_room(frame: Vec<u8>, choices: usize, rng: &mut Rng) -> Specimen {
    let asked = Frame::decode(&frame).map_or(LEAST_ROOM, |frame| frame.room());
    let room = match rng.below(choices) {
        0 => asked,
        1 => asked - 1,
        2 => rng.below(asked),
        3 => rng.pick(&[0, 4, 5, 6]),
        _ => AMPLE,
    };
    Specimen { frame, room }
}
