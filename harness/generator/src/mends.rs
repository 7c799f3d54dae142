//! Rings to mend (document 02, point 7): corners that are repeated, exactly or by about 1e-10, in runs of any length at any place; closed,
//! open, and closed by zeros of the other sign; and the output that each is lent with.

use formats::calls::MOST_COORDINATES;
use formats::mends::MendCall;
use formats::{closed_length, flat, Coord, Ring};

use crate::calls::lent_exactly;
use crate::numbers::{any_bits, either_sign, grid, near, near_offset};
use crate::rng::Rng;
use crate::scene::rounded;

/// Keeps the mended rings of a seed apart from its frames and calls; each kind has its own stream.
const STREAM: u64 = 900;

#[derive(Clone, Copy, Debug, PartialEq, Eq)]
pub enum MendKind {
    /// Corners far apart, most of them met in runs: at the front, in the middle, and before the closing one.
    Runs,
    /// No corner is near the one before it, though x or y alone often is, up to the first again at the end.
    Distinct,
    /// All but a few near one point.
    OnePoint,
    /// Each a part of 1e-10 from the one before: neighbours are near, and the last one kept soon is not.
    Creeping,
    /// Steps of 1e-10, some last digits less or more, and of parts of it, in one axis or both.
    Steps,
    /// Distances that hang on the rounding of a difference.
    Rounded,
    /// Any bit patterns.
    Bits,
    /// NaNs and infinities among small whole numbers, often in the first coordinate.
    NotFinite,
    /// Zeros of either sign: closed as floats compare, and not bit for bit.
    Zeros,
    /// No coordinate to three.
    Few,
    /// So many corners that three coordinates or four remain, however often each is repeated.
    ThreeOrFour,
    /// Hundreds of coordinates, and seldom about as many as a call may have.
    Long,
}

impl MendKind {
    pub const ALL: [MendKind; 12] = [
        MendKind::Runs,
        MendKind::Distinct,
        MendKind::OnePoint,
        MendKind::Creeping,
        MendKind::Steps,
        MendKind::Rounded,
        MendKind::Bits,
        MendKind::NotFinite,
        MendKind::Zeros,
        MendKind::Few,
        MendKind::ThreeOrFour,
        MendKind::Long,
    ];

    pub fn name(self) -> &'static str {
        match self {
            MendKind::Runs => "runs",
            MendKind::Distinct => "distinct",
            MendKind::OnePoint => "one point",
            MendKind::Creeping => "creeping",
            MendKind::Steps => "steps",
            MendKind::Rounded => "rounded",
            MendKind::Bits => "bits",
            MendKind::NotFinite => "not finite",
            MendKind::Zeros => "zeros",
            MendKind::Few => "few",
            MendKind::ThreeOrFour => "three or four",
            MendKind::Long => "long",
        }
    }
}

pub fn mend(kind: MendKind, seed: u64, index: u64) -> MendCall {
    let rng = &mut Rng::new(seed, STREAM + kind as u64, index);
    let ring = ring(kind, rng);
    let length = lent_length(&ring, rng);
    let mut ring = flat(&ring);
    if rng.once_in(30) {
        ring.push(any_bits(rng));
    }
    MendCall { ring, out: lent_exactly(length, rng) }
}

fn ring(kind: MendKind, rng: &mut Rng) -> Ring {
    let ring = match kind {
        MendKind::Runs => runs(3 + rng.below(8), rng),
        MendKind::Distinct => distinct(rng),
        MendKind::OnePoint => one_point(rng),
        MendKind::Creeping => creeping(rng),
        MendKind::Steps => any_of(2 + rng.below(12), step, rng),
        MendKind::Rounded => hanging_on_rounding(rng),
        MendKind::Bits => with_repeats(any_bits, rng),
        MendKind::NotFinite => not_finite(rng),
        MendKind::Zeros => with_repeats(|rng| rng.pick(&[0.0, -0.0, 0.0, -0.0, 1.0, 2.0, 1e-11, -1e-11]), rng),
        MendKind::Few => return few(rng),
        MendKind::ThreeOrFour => return three_or_four(rng),
        MendKind::Long => return long(rng),
    };
    ended(ring, rng)
}

/// Left open, or closed by its first coordinate: once, more than once, with zeros of the other sign, or by one that is near it.
fn ended(mut ring: Ring, rng: &mut Rng) -> Ring {
    let Some(&first) = ring.first() else {
        return ring;
    };
    if rng.once_in(6) {
        ring.extend(vec![first; 1 + rng.below(3)]);
    }
    match rng.below(12) {
        0..=4 => {}
        5 | 6 => ring.push(other_zeros(first, rng)),
        7 => ring.push(beside(first, rng)),
        _ => ring.push(first),
    }
    ring
}

/// The same coordinate as floats compare, some of its zeros of the other sign.
fn other_zeros((x, y): Coord, rng: &mut Rng) -> Coord {
    let mut turned = |number: f64| if number == 0.0 && rng.once_in(2) { -number } else { number };
    (turned(x), turned(y))
}

fn corner(rng: &mut Rng) -> Coord {
    (grid(rng), grid(rng))
}

/// The corner again, mostly as it is, or up to some 1e-10 from it in one axis or both.
fn beside((x, y): Coord, rng: &mut Rng) -> Coord {
    match rng.below(8) {
        0 => (x + near_offset(rng), y),
        1 => (x, y + near_offset(rng)),
        2 => (x + near_offset(rng), y + near_offset(rng)),
        3 => other_zeros((x, y), rng),
        _ => (x, y),
    }
}

/// How often in a row a corner is met: mostly a few times.
fn run_length(rng: &mut Rng) -> usize {
    match rng.below(10) {
        0..=3 => 1,
        4..=6 => 2,
        7 | 8 => 3 + rng.below(3),
        _ => 1 + rng.below(30),
    }
}

/// A corner and its repeats.
fn run(corner: Coord, rng: &mut Rng) -> Ring {
    let mut run = vec![corner];
    run.extend((1..run_length(rng)).map(|_| beside(corner, rng)));
    run
}

fn runs(corners: usize, rng: &mut Rng) -> Ring {
    (0..corners).flat_map(|_| run(corner(rng), rng)).collect()
}

/// So many coordinates, each number drawn by itself.
fn any_of(coordinates: usize, number: fn(&mut Rng) -> f64, rng: &mut Rng) -> Ring {
    (0..coordinates).map(|_| (number(rng), number(rng))).collect()
}

/// Of small whole numbers, of degrees as areas are published, or anywhere. Each is over 1e-9 from the one before it in x or in y, and often
/// has the other of it.
fn distinct(rng: &mut Rng) -> Ring {
    let number: fn(&mut Rng) -> f64 = rng.pick(&[
        grid as fn(&mut Rng) -> f64,
        |rng| rounded(360.0 * rng.fraction() - 180.0),
        |rng| 10.0 * rng.fraction(),
        near,
    ]);
    let mut ring: Ring = vec![(number(rng), number(rng))];
    for _ in 0..2 + rng.below(20) {
        let (x, y) = ring[ring.len() - 1];
        let next = match rng.below(4) {
            0 => (x + near_offset(rng), number(rng)),
            1 => (number(rng), y + near_offset(rng)),
            _ => (number(rng), number(rng)),
        };
        let is_far = |a: f64, b: f64| (a - b).abs() > 1e-9;
        if is_far(next.0, x) || is_far(next.1, y) {
            ring.push(next);
        }
    }
    ring
}

/// Up to 1e-10 about one point in each axis, with up to three corners elsewhere put in anywhere.
fn one_point(rng: &mut Rng) -> Ring {
    let (x, y) = corner(rng);
    let reach = rng.pick(&[0.0, 4e-11, 1e-10]);
    let about = |number: f64, rng: &mut Rng| number + reach * (2.0 * rng.fraction() - 1.0);
    let mut ring: Ring = (0..1 + rng.below(12)).map(|_| (about(x, rng), about(y, rng))).collect();
    for _ in 0..rng.below(4) {
        let place = rng.below(ring.len() + 1);
        ring.insert(place, corner(rng));
    }
    ring
}

/// In one direction, or there and back.
fn creeping(rng: &mut Rng) -> Ring {
    let (mut x, mut y) = (near(rng), near(rng));
    let part = rng.pick(&[0.2, 0.35, 0.5, 0.6, 0.9, 0.99, 1.0, 1.01]);
    let (along, across) = rng.pick(&[(1.0, 0.0), (0.0, 1.0), (1.0, 1.0), (-1.0, 0.5), (0.3, -1.0)]);
    let turns = rng.once_in(2);
    let mut ring = vec![(x, y)];
    for _ in 0..2 + rng.below(30) {
        let step = if turns { either_sign(part * 1e-10, rng) } else { part * 1e-10 };
        (x, y) = (x + along * step, y + across * step);
        ring.push((x, y));
    }
    if rng.once_in(2) {
        ring.extend((0..1 + rng.below(3)).map(|_| corner(rng)));
    }
    ring
}

/// Zero or one and a step from it: the distance in each axis is that step, to the last digit where it is from zero. Two steps that are each
/// under 1e-10 may be over it together.
fn step(rng: &mut Rng) -> f64 {
    let step = match rng.below(4) {
        0 => rng.pick(&[5e-11, 7.5e-11, 9e-11, 1.5e-10, 2e-10]),
        1 => 0.0,
        _ => rng.pick(&[1e-10, 1e-10_f64.next_down(), 1e-10_f64.next_up()]),
    };
    rng.pick(&[0.0, 0.0, 0.0, 1.0]) + either_sign(step, rng)
}

/// 1e-10 and numbers so small that the difference from it rounds to it or to the double below; or neighbouring doubles where their distance
/// is about 1e-10.
fn hanging_on_rounding(rng: &mut Rng) -> Ring {
    if rng.once_in(3) {
        let base = rng.pick(&[262_144.0, 524_288.0, 1_048_576.0]) + rng.fraction();
        let moved = |rng: &mut Rng| (0..rng.below(4)).fold(base, |number, _| number.next_up());
        return (0..3 + rng.below(8)).map(|_| (moved(rng), moved(rng))).collect();
    }
    let number: fn(&mut Rng) -> f64 = |rng| match rng.below(3) {
        0 => 1e-10,
        1 => either_sign(rng.pick(&[1e-30, 5e-324, 6e-27, 7e-27, 1e-26, f64::MIN_POSITIVE]), rng),
        _ => rng.pick(&[0.0, -0.0, 2e-10, -1e-10]),
    };
    any_of(3 + rng.below(8), number, rng)
}

/// Drawn coordinates, each of which is often met again at once.
fn with_repeats(number: impl Fn(&mut Rng) -> f64, rng: &mut Rng) -> Ring {
    let mut ring = Ring::new();
    for _ in 0..rng.below(10) {
        let coord = (number(rng), number(rng));
        ring.extend(vec![coord; rng.pick(&[1, 1, 1, 2, 3])]);
    }
    ring
}

/// Over half of the rings have a NaN in their first coordinate, which equals none, however they end.
fn not_finite(rng: &mut Rng) -> Ring {
    let not_finite = |rng: &mut Rng| match rng.below(3) {
        0 => either_sign(f64::INFINITY, rng),
        _ => any_nan(rng),
    };
    let mut ring = with_repeats(|rng| if rng.once_in(4) { not_finite(rng) } else { grid(rng) }, rng);
    if let Some((x, y)) = ring.first_mut().filter(|_| rng.once_in(2)) {
        *(if rng.once_in(2) { x } else { y }) = any_nan(rng);
    }
    ring
}

/// A NaN of any bits.
fn any_nan(rng: &mut Rng) -> f64 {
    either_sign(f64::from_bits(0x7ff0_0000_0000_0001 | rng.bits() >> 12), rng)
}

/// One coordinate and repeats of it, or any; a NaN in the first more often than it would come by chance.
fn few(rng: &mut Rng) -> Ring {
    let first = if rng.once_in(3) { (any_nan(rng), grid(rng)) } else { corner(rng) };
    let mut ring = vec![first];
    while ring.len() < 3 {
        let next = match rng.below(4) {
            0 => corner(rng),
            1 => (any_bits(rng), any_bits(rng)),
            _ => beside(first, rng),
        };
        ring.push(next);
    }
    ring.truncate(rng.below(4));
    ring
}

/// Two corners or three, each with repeats that are near it and apart from the others, and the first again where the ring is closed.
fn three_or_four(rng: &mut Rng) -> Ring {
    let (x, y) = corner(rng);
    let corners = [(x, y), (x + 1.0, y), (x, y + 1.0)];
    let near_to = |(x, y): Coord, rng: &mut Rng| {
        let off = |rng: &mut Rng| either_sign(rng.pick(&[0.0, 0.0, 1e-11, 5e-11, 9e-11]), rng);
        (x + off(rng), y + off(rng))
    };
    let mut ring = Ring::new();
    for &corner in &corners[..rng.pick(&[2, 3])] {
        ring.push(corner);
        ring.extend((1..run_length(rng)).map(|_| near_to(corner, rng)));
    }
    if rng.once_in(2) {
        ring.push(other_zeros(corners[0], rng));
    }
    ring
}

/// Whether a ring is about the limit of 65,532 coordinates; such rings take long, so they are rare.
fn is_about_the_limit(rng: &mut Rng) -> bool {
    rng.once_in(100)
}

/// Corners of a pattern, each met so many times in a row: all of them once, or so often that few remain. Seldom the first has a NaN.
fn long(rng: &mut Rng) -> Ring {
    let lent = if is_about_the_limit(rng) {
        let beside = rng.pick(&[-1, -1, 0, 0, 0, 1, 1, 3, 4, 5]);
        MOST_COORDINATES.saturating_add_signed(beside)
    } else {
        100 + rng.below(900)
    };
    let times = rng.pick(&[1, 1, 1, 2, 3, 10, 1_000, 65_536]);
    let mut ring: Ring = (0..lent).map(|k| (((k / times) % 7) as f64, ((k / times) % 5) as f64)).collect();
    if rng.once_in(4) {
        ring[0].0 = any_nan(rng);
    }
    ring[lent - 1] = if rng.once_in(2) { ring[0] } else { (8.0, 8.0) };
    ring
}

/// What half of the rings of too many coordinates are lent: they are refused, however much it is.
const LITTLE: usize = 10;

/// A length about the one that is asked for, or about one that somebody could go by instead: as many numbers as are lent, or kept.
fn lent_length(ring: &Ring, rng: &mut Rng) -> usize {
    let (asked, lent, kept) = (2 * closed_length(ring), 2 * ring.len(), 2 * kept(ring));
    match rng.below(30) {
        _ if lent > 2 * MOST_COORDINATES && rng.once_in(2) => LITTLE,
        0 | 1 => asked.saturating_sub(1),
        2 | 3 => asked + 1,
        4 => asked + 100 + rng.below(900),
        5 => 0,
        6 => lent,
        7 => kept,
        8 => kept.saturating_sub(1),
        9 => rng.below(asked + 1),
        10..=19 => asked,
        _ => asked + rng.below(6),
    }
}

/// How many coordinates remain of the ring, the closing one among them: it only chooses a length.
fn kept(ring: &Ring) -> usize {
    let before_closing = ring.len() - usize::from(ring.first() == ring.last() && !ring.is_empty());
    let is_near = |a: f64, b: f64| (a - b).abs() < 1e-10;
    let (mut last, mut count): (Option<Coord>, usize) = (None, 1);
    for &(x, y) in &ring[..before_closing] {
        if !last.is_some_and(|last| is_near(x, last.0) && is_near(y, last.1)) {
            (last, count) = (Some((x, y)), count + 1);
        }
    }
    count
}
