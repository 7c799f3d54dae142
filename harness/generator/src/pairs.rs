//! Two edges at a time, nearly or exactly of one line, on the grid of document 02's point 5 and off it. They are drawn in whole steps,
//! so that what is meant to be exactly so is.

use crate::meetings::{cross_properly, cross_rounded, Pair};
use crate::numbers::any_bits;
use crate::rng::Rng;

/// Keeps the pairs of a seed apart from its frames and calls; each kind has its own stream.
const STREAM: u64 = 700;

#[derive(Clone, Copy, Debug, PartialEq, Eq)]
pub enum PairKind {
    /// Four places of a line, each off it by its rounding, and now and then by a step or two more.
    NearlyCollinear,
    /// One edge from far out to far out on the other side, and one nearly on it where it passes zero and steps are finest.
    AroundZero,
    /// The same direction but for a few steps, beside each other.
    NearlyParallel,
    /// Exactly of one line: overlapping, with an end in common, or apart on it.
    Collinear,
    /// Three ends exactly of one line, and the fourth nearly.
    EndOnLine,
    /// An end exactly on the other edge.
    Touching,
    /// Tenths, hundredths or thousandths of one line.
    Decimals,
    /// Taken for crossing by the rounded test, though they don't cross properly: looked for among those above.
    LookedFor,
    /// Anywhere.
    Scattered,
    /// Points, and edges shorter than 1e-10 or hardly longer.
    Short,
    /// From a few steps to some millions long.
    Finest,
    /// One number is 256 or -256, or the next double beyond it.
    Largest,
    /// One number or two are zeros of either sign.
    Zeros,
    /// One number is half a step off the grid.
    OneOffGrid,
    /// Of any finer or coarser steps, down to the smallest doubles and up to the largest.
    OffGrid,
    /// One number is a NaN, infinite or huge.
    NotFinite,
    /// Any bit patterns.
    Bits,
}

impl PairKind {
    pub const ALL: [PairKind; 17] = [
        PairKind::NearlyCollinear,
        PairKind::AroundZero,
        PairKind::NearlyParallel,
        PairKind::Collinear,
        PairKind::EndOnLine,
        PairKind::Touching,
        PairKind::Decimals,
        PairKind::LookedFor,
        PairKind::Scattered,
        PairKind::Short,
        PairKind::Finest,
        PairKind::Largest,
        PairKind::Zeros,
        PairKind::OneOffGrid,
        PairKind::OffGrid,
        PairKind::NotFinite,
        PairKind::Bits,
    ];

    pub fn name(self) -> &'static str {
        match self {
            PairKind::NearlyCollinear => "nearly collinear",
            PairKind::AroundZero => "around zero",
            PairKind::NearlyParallel => "nearly parallel",
            PairKind::Collinear => "collinear",
            PairKind::EndOnLine => "end on line",
            PairKind::Touching => "touching",
            PairKind::Decimals => "decimals",
            PairKind::LookedFor => "looked for",
            PairKind::Scattered => "scattered",
            PairKind::Short => "short",
            PairKind::Finest => "finest",
            PairKind::Largest => "largest",
            PairKind::Zeros => "zeros",
            PairKind::OneOffGrid => "one off grid",
            PairKind::OffGrid => "off grid",
            PairKind::NotFinite => "not finite",
            PairKind::Bits => "bits",
        }
    }
}

pub fn pair(kind: PairKind, seed: u64, index: u64) -> Pair {
    draw(kind, &mut Rng::new(seed, STREAM + kind as u64, index))
}

/// A pair of the kind.
pub fn draw(kind: PairKind, rng: &mut Rng) -> Pair {
    match kind {
        PairKind::NearlyCollinear => on_grid(nearly_collinear(rng)),
        PairKind::AroundZero => around_zero(far(rng), near(rng), rng),
        PairKind::NearlyParallel => on_grid(nearly_parallel(rng)),
        PairKind::Collinear => on_grid(collinear(rng)),
        PairKind::EndOnLine => on_grid(end_on_line(rng)),
        PairKind::Touching => on_grid(touching(rng)),
        PairKind::Decimals => decimals(rng),
        PairKind::LookedFor => looked_for(rng),
        PairKind::Scattered => on_grid([(); 4].map(|()| place(LARGEST, rng))),
        PairKind::Short => on_grid(short(rng)),
        PairKind::Finest => on_grid(finest(rng)),
        PairKind::Largest => largest(rng),
        PairKind::Zeros => zeros(rng),
        PairKind::OneOffGrid => one_off_grid(rng),
        PairKind::OffGrid => off_grid(rng),
        PairKind::NotFinite => not_finite(rng),
        PairKind::Bits => [(); 4].map(|()| (any_bits(rng), any_bits(rng))),
    }
}

/// A place in steps of the grid.
type Place = (i64, i64);

/// The steps that make one, and those that make 256.
const ONE: i64 = 1 << 48;
const LARGEST: i64 = 256 * ONE;

/// A number of at most so many steps, now and then of far fewer.
fn number(most: i64, rng: &mut Rng) -> i64 {
    let bits = rng.pick(&[0, 0, 0, 0, 1, 2, 4, 12]);
    rng.between(-(most >> bits), most >> bits)
}

fn place(most: i64, rng: &mut Rng) -> Place {
    (number(most, rng), number(most, rng))
}

/// The nearest doubles, which are on the grid: they are the places themselves up to 32, and in multiples of 8 steps all.
fn on_grid(places: [Place; 4]) -> Pair {
    in_steps(places, 1.0 / ONE as f64)
}

fn in_steps(places: [Place; 4], step: f64) -> Pair {
    places.map(|(x, y)| (x as f64 * step, y as f64 * step))
}

/// Places at 32nds of the way between two, rounded to a step, and further where a double has fewer digits.
fn nearly_collinear(rng: &mut Rng) -> [Place; 4] {
    let (from, to) = (place(LARGEST, rng), place(LARGEST, rng));
    let off = rng.pick(&[0, 0, 0, 1, 2]);
    let between = |from: i64, to: i64, part: i64| from + (((to - from) * part + 16) >> 5);
    [(); 4].map(|()| {
        let part = rng.between(0, 32);
        let (x, y) = (between(from.0, to.0, part), between(from.1, to.1, part));
        (within(x + rng.between(-off, off)), within(y + rng.between(-off, off)))
    })
}

fn within(number: i64) -> i64 {
    number.clamp(-LARGEST, LARGEST)
}

/// A count of steps far out, such as a double can be there.
fn far(rng: &mut Rng) -> i64 {
    8 * rng.between(4 * ONE, 32 * ONE)
}

/// A count of steps near zero.
fn near(rng: &mut Rng) -> i64 {
    number(24 * ONE, rng)
}

/// The far edge begins at an x of so many steps and passes less than 4 from zero; the near one begins at such an x, and is as near to
/// the line as steps are.
fn around_zero(far_x: i64, near_x: i64, rng: &mut Rng) -> Pair {
    let a = (far_x, 8 * rng.between(-far_x / 8, far_x / 8));
    let (b_x, beside) = (-far(rng), rng.between(-4 * ONE, 4 * ONE));
    let b_y = i128::from(a.1) * i128::from(b_x) / i128::from(a.0) + i128::from(beside);
    let b = (b_x, within(b_y as i64) & !7);
    let [c, d] = [near_x, near(rng)].map(|x| {
        let rise = i128::from(x - a.0) * i128::from(b.1 - a.1) / i128::from(b.0 - a.0);
        (x, a.1 + rise as i64 + rng.between(-1, 1))
    });
    mirrored(on_grid(in_any_order([a, b, c, d], rng)), rng)
}

/// Two edges of some way and nearly the same, a little beside each other and shifted along.
fn nearly_parallel(rng: &mut Rng) -> [Place; 4] {
    let (way, start) = (place(LARGEST / 4, rng), place(LARGEST / 4, rng));
    let most = 1 << rng.below(20);
    let beside = (rng.between(-most, most), rng.between(-most, most));
    let shift = rng.between(-32, 32);
    let other = (start.0 + ((way.0 * shift) >> 5) + beside.0, start.1 + ((way.1 * shift) >> 5) + beside.1);
    let turn = (rng.between(-3, 3), rng.between(-3, 3));
    let end = |start: Place, way: Place| (start.0 + way.0, start.1 + way.1);
    [start, end(start, way), other, end(other, (way.0 + turn.0, way.1 + turn.1))]
}

/// A line of places that lie on it exactly, as doubles too: those near zero are less than 32 from it, where a double can be any count of
/// steps, and those far out are at multiples of eight ways from a middle of a multiple of eight steps, as doubles are up to 256.
struct Line {
    middle: Place,
    way: Place,
    /// How many ways the near places are from the middle at most, and how many times eight the far ones.
    ways: i64,
}

impl Line {
    fn new(rng: &mut Rng) -> Line {
        let (middle, ways) = (place(ONE, rng), rng.pick(&[1, 1, 2, 4, 8]));
        let most = 16 * ONE / ways;
        let way = (rng.between(-most, most), rng.between(-most, most));
        Line { middle: (8 * middle.0, 8 * middle.1), way, ways }
    }

    fn at(&self, ways: i64) -> Place {
        (self.middle.0 + ways * self.way.0, self.middle.1 + ways * self.way.1)
    }

    /// At an odd count of ways.
    fn near(&self, rng: &mut Rng) -> Place {
        self.at((rng.between(0, self.ways - 1) | 1) * rng.pick(&[1, -1]))
    }

    /// Its difference from a near place has more digits than a double, most often.
    fn far(&self, rng: &mut Rng) -> Place {
        self.at(8 * rng.between(1, self.ways) * rng.pick(&[1, -1]))
    }

    fn any(&self, rng: &mut Rng) -> Place {
        match rng.below(8) {
            0 => self.middle,
            1..=3 => self.far(rng),
            _ => self.near(rng),
        }
    }
}

/// Anywhere on the line, or one edge far and one near.
fn collinear(rng: &mut Rng) -> [Place; 4] {
    let line = Line::new(rng);
    if rng.once_in(2) {
        return [(); 4].map(|()| line.any(rng));
    }
    in_any_order([line.far(rng), line.far(rng), line.near(rng), line.near(rng)], rng)
}

/// The third end may be on the first edge, too. The fourth is at halves of a way, rounded, and now and then a step off.
fn end_on_line(rng: &mut Rng) -> [Place; 4] {
    let line = Line::new(rng);
    let [a, b] = [(); 2].map(|()| if rng.once_in(4) { line.any(rng) } else { line.near(rng) });
    let (c, halves, off) = (line.far(rng), rng.between(-2 * line.ways, 2 * line.ways), rng.pick(&[0, 0, 1]));
    let mut nearly = |middle: i64, way: i64| middle + ((halves * way) >> 1) + rng.between(-off, off);
    let d = (nearly(line.middle.0, line.way.0), nearly(line.middle.1, line.way.1));
    in_any_order([a, b, c, d], rng)
}

/// The third end is on the first edge, and the fourth anywhere.
fn touching(rng: &mut Rng) -> [Place; 4] {
    let line = Line::new(rng);
    let (low, high) = (line.at(-8 * rng.between(0, line.ways)), line.at(8 * line.ways));
    let c = line.at(rng.between(0, line.ways));
    in_any_order([low, high, c, place(LARGEST, rng)], rng)
}

/// The edges and their ends exchanged or not.
fn in_any_order([a, b, c, d]: [Place; 4], rng: &mut Rng) -> [Place; 4] {
    match rng.below(8) {
        0 => [a, b, c, d],
        1 => [b, a, c, d],
        2 => [a, b, d, c],
        3 => [b, a, d, c],
        4 => [c, d, a, b],
        5 => [d, c, a, b],
        6 => [c, d, b, a],
        _ => [d, c, b, a],
    }
}

/// Places of a line of decimals, up to 256.
fn decimals(rng: &mut Rng) -> Pair {
    let unit = rng.pick(&[10, 10, 100, 1_000]);
    let (x, y) = (rng.between(-120 * unit, 120 * unit), rng.between(-120 * unit, 120 * unit));
    let (dx, dy) = (rng.between(-4 * unit, 4 * unit), rng.between(-4 * unit, 4 * unit));
    [(); 4].map(|()| {
        let place = rng.between(-34, 34);
        ((x + place * dx) as f64 / unit as f64, (y + place * dy) as f64 / unit as f64)
    })
}

/// How often a pair is drawn at most.
const TRIES: usize = 200;

/// The last one tried, where none is found.
fn looked_for(rng: &mut Rng) -> Pair {
    let kind = rng.pick(&[
        PairKind::NearlyCollinear,
        PairKind::AroundZero,
        PairKind::AroundZero,
        PairKind::Collinear,
        PairKind::EndOnLine,
        PairKind::Touching,
        PairKind::Decimals,
        PairKind::Largest,
        PairKind::Zeros,
        PairKind::OneOffGrid,
    ]);
    let mut pair = draw(kind, rng);
    for _ in 1..TRIES {
        if cross_rounded(&pair) && cross_properly(&pair) != Some(true) {
            break;
        }
        pair = draw(kind, rng);
    }
    pair
}

/// A pair nearly of one line with one edge, or both, shrunk to a point or to about 1e-10, which is some 28,148 steps.
fn short(rng: &mut Rng) -> [Place; 4] {
    let [a, b, c, _] = nearly_collinear(rng);
    let most = rng.pick(&[0, 1, 1_000, 28_147, 28_148, 28_149, 40_000]);
    let both = rng.once_in(2);
    let mut beside = |(x, y): Place| (within(x + rng.between(-most, most)), within(y + rng.between(-most, most)));
    let (d, b) = (beside(c), if both { beside(a) } else { b });
    in_any_order([a, b, c, d], rng)
}

/// Up to some millions of steps from a small place.
fn finest(rng: &mut Rng) -> [Place; 4] {
    let (x, y) = place(30 * ONE, rng);
    let most = 1 << rng.between(1, 26);
    [(); 4].map(|()| (x + rng.between(-most, most), y + rng.between(-most, most)))
}

/// The far edge begins at 256, or at the next double beyond.
fn largest(rng: &mut Rng) -> Pair {
    let pair = around_zero(LARGEST, near(rng), rng);
    let most = if rng.once_in(4) { 256.0_f64.next_up() } else { 256.0 };
    let at_most = |number: f64| if number.abs() == 256.0 { most.copysign(number) } else { number };
    pair.map(|(x, y)| (at_most(x), at_most(y)))
}

/// Turned and mirrored, none of which changes what is rounded.
pub fn mirrored(pair: Pair, rng: &mut Rng) -> Pair {
    let (swapped, x_sign, y_sign) = (rng.once_in(2), rng.pick(&[1.0, -1.0]), rng.pick(&[1.0, -1.0]));
    pair.map(|(x, y)| if swapped { (y_sign * y, x_sign * x) } else { (x_sign * x, y_sign * y) })
}

/// An end of the near edge, or of the far one, is at zero in one axis or in both; each zero has any sign.
fn zeros(rng: &mut Rng) -> Pair {
    let mut pair = around_zero(far(rng), 0, rng);
    if rng.once_in(3) {
        let end = pair[rng.below(4)];
        pair = pair.map(|(x, y)| (x - end.0, y - end.1));
    }
    let mut signed = |number: f64| if number == 0.0 && rng.once_in(2) { -number } else { number };
    pair.map(|(x, y)| (signed(x), signed(y)))
}

/// The near edge begins half a step from the grid.
fn one_off_grid(rng: &mut Rng) -> Pair {
    let near_x = number(8 * ONE - 1, rng);
    let pair = around_zero(far(rng), near_x, rng);
    let (small, moved) = (near_x.abs() as f64 / ONE as f64, (near_x.abs() as f64 + 0.5) / ONE as f64);
    let off = |number: f64| if number.abs() == small { moved.copysign(number) } else { number };
    pair.map(|(x, y)| (off(x), off(y)))
}

/// Pairs nearly or exactly of one line, in steps of any size but those of the grid.
fn off_grid(rng: &mut Rng) -> Pair {
    let places = if rng.once_in(2) { nearly_collinear(rng) } else { collinear(rng) };
    let exponent = match rng.below(4) {
        0 => rng.between(-58, -49),
        1 => rng.between(-47, -30),
        2 => rng.between(-1_022, -49),
        _ => rng.between(-47, 960),
    };
    in_steps(places, 2f64.powi(exponent as i32))
}

fn not_finite(rng: &mut Rng) -> Pair {
    let mut pair = if rng.once_in(2) { on_grid(nearly_collinear(rng)) } else { decimals(rng) };
    let number = rng.pick(&[f64::NAN, -f64::NAN, f64::INFINITY, f64::NEG_INFINITY, 1e300, -f64::MAX]);
    let end = &mut pair[rng.below(4)];
    if rng.once_in(2) {
        end.0 = number;
    } else {
        end.1 = number;
    }
    pair
}
