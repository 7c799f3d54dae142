//! One cut at a time: a line and two ends, one in and the other out, of numbers up to 256, as document 02's point 8 has them. They are
//! drawn at a line that has its inner side above it, and mirrored for Right and Top.

use formats::cuts::{vertex, Cut};
use formats::passes::Edge;

use crate::numbers::either_sign;
use crate::rng::Rng;
use crate::scene::{rounded, tile_bounds};

/// Keeps the cuts of a seed apart from its frames and calls; each kind has its own stream.
const STREAM: u64 = 800;

#[derive(Clone, Copy, Debug, PartialEq, Eq)]
pub enum CutKind {
    /// Anywhere up to 256, now and then far nearer to 0.
    Scattered,
    /// Any bit patterns of numbers up to 256.
    Bits,
    /// Lines of real web-mercator tiles, and ends about these in degrees.
    Tiles,
    /// One end or both a few last digits from the line, or on it.
    BesideLine,
    /// One end on the line.
    OnLine,
    /// 256, -256 and what is a few last digits from them.
    Largest,
    /// A few last digits from powers of two, where a rounding weighs most, and ends that make differences so.
    PowersOfTwo,
    /// Subnormal numbers, the least normal ones and zeros across the line: so are the differences.
    Subnormal,
    /// Free coordinates that are equal or nearly, opposite, subnormal, or zeros of either sign.
    FreeAlike,
    /// The edge runs almost along the line, from far to far.
    AlongLine,
    /// The edge runs almost straight across the line.
    StraightAcross,
    /// Cuts that are known to be far from the exact crossing, a few last digits moved.
    FarOff,
}

impl CutKind {
    pub const ALL: [CutKind; 12] = [
        CutKind::Scattered,
        CutKind::Bits,
        CutKind::Tiles,
        CutKind::BesideLine,
        CutKind::OnLine,
        CutKind::Largest,
        CutKind::PowersOfTwo,
        CutKind::Subnormal,
        CutKind::FreeAlike,
        CutKind::AlongLine,
        CutKind::StraightAcross,
        CutKind::FarOff,
    ];

    pub fn name(self) -> &'static str {
        match self {
            CutKind::Scattered => "scattered",
            CutKind::Bits => "bits",
            CutKind::Tiles => "tiles",
            CutKind::BesideLine => "beside line",
            CutKind::OnLine => "on line",
            CutKind::Largest => "largest",
            CutKind::PowersOfTwo => "powers of two",
            CutKind::Subnormal => "subnormal",
            CutKind::FreeAlike => "free alike",
            CutKind::AlongLine => "along line",
            CutKind::StraightAcross => "straight across",
            CutKind::FarOff => "far off",
        }
    }
}

/// The edges take turns; from in to out, or from out to in.
pub fn cut(kind: CutKind, seed: u64, index: u64) -> Cut {
    let rng = &mut Rng::new(seed, STREAM + kind as u64, index);
    let edge = Edge::ALL[index as usize % Edge::ALL.len()];
    let cut = draw(kind, edge, rng).at(edge);
    let numbers = [cut.bound, cut.start.0, cut.start.1, cut.end.0, cut.end.1];
    assert!(numbers.iter().all(|number| number.abs() <= LARGEST), "{cut}");
    assert!(cut.is_in(cut.start) && !cut.is_in(cut.end), "{cut}");
    if rng.once_in(2) {
        cut.turned()
    } else {
        cut
    }
}

/// No number is larger in magnitude.
const LARGEST: f64 = 256.0;

/// The lowest line that has room for an end below it.
const LOWEST_LINE: f64 = (-LARGEST).next_up();

/// A line with its inner side above it, and the fixed coordinates of the two ends.
struct Across {
    bound: f64,
    inner: f64,
    outer: f64,
}

impl Across {
    /// As they are given, or as near to that as a line and ends on its two sides can be.
    fn near(bound: f64, inner: f64, outer: f64) -> Across {
        let bound = bound.clamp(LOWEST_LINE, LARGEST);
        Across { bound, inner: inner.clamp(bound, LARGEST), outer: outer.clamp(-LARGEST, bound.next_down()) }
    }

    /// The line is the one between.
    fn sorted(mut numbers: [f64; 3]) -> Across {
        numbers.sort_by(f64::total_cmp);
        let [outer, bound, inner] = numbers;
        Across::near(bound, inner, outer)
    }

    fn scattered(rng: &mut Rng) -> Across {
        Across::sorted([(); 3].map(|()| scattered(rng)))
    }
}

/// The free coordinates of the inner end and of the outer one.
type Free = [f64; 2];

struct Drawn {
    across: Across,
    free: Free,
}

impl Drawn {
    /// From the inner end to the outer one. Right and Top have their inner side below.
    fn at(&self, edge: Edge) -> Cut {
        let Across { bound, inner, outer } = self.across;
        let sign = if matches!(edge, Edge::Left | Edge::Bottom) { 1.0 } else { -1.0 };
        let end = |fixed: f64, free: f64| vertex(edge, sign * fixed, free);
        Cut { edge, bound: sign * bound, start: end(inner, self.free[0]), end: end(outer, self.free[1]) }
    }
}

fn draw(kind: CutKind, edge: Edge, rng: &mut Rng) -> Drawn {
    match kind {
        CutKind::Scattered => Drawn { across: Across::scattered(rng), free: [scattered(rng), scattered(rng)] },
        CutKind::Bits => Drawn { across: Across::sorted([(); 3].map(|()| bits(rng))), free: [bits(rng), bits(rng)] },
        CutKind::Tiles => tiles(edge, rng),
        CutKind::BesideLine => Drawn { across: beside_line(rng), free: free(rng) },
        CutKind::OnLine => {
            let across = Across::scattered(rng);
            Drawn { across: Across { inner: across.bound, ..across }, free: free(rng) }
        }
        CutKind::Largest => Drawn { across: largest(rng), free: [near_largest(rng), near_largest(rng)] },
        CutKind::PowersOfTwo => Drawn { across: powers_of_two(rng), free: free(rng) },
        CutKind::Subnormal => Drawn { across: Across::sorted([(); 3].map(|()| subnormal(rng))), free: free(rng) },
        CutKind::FreeAlike => Drawn { across: Across::scattered(rng), free: alike(rng) },
        CutKind::AlongLine => Drawn { across: along_line(rng), free: from_far_to_far(rng) },
        CutKind::StraightAcross => Drawn { across: Across::scattered(rng), free: nearly_equal(rng) },
        CutKind::FarOff => far_off(rng),
    }
}

/// Up to 256, now and then far smaller.
fn scattered(rng: &mut Rng) -> f64 {
    let number = LARGEST * (2.0 * rng.fraction() - 1.0);
    number * 2f64.powi(rng.pick(&[0, 0, 0, 0, -1, -3, -8, -30, -60]))
}

/// Any bit pattern of a number up to 256.
fn bits(rng: &mut Rng) -> f64 {
    either_sign(f64::from_bits(rng.bits() % (LARGEST.to_bits() + 1)), rng)
}

/// Zero, a few of the least numbers, any subnormal one, or one with the last digit of these.
fn subnormal(rng: &mut Rng) -> f64 {
    either_sign(f64::from_bits(rng.bits() >> rng.pick(&[11, 12, 30, 58, 61, 62, 63])), rng)
}

/// Up to so many last digits more or less.
fn moved(number: f64, most: i64, rng: &mut Rng) -> f64 {
    let digits = rng.between(-most, most);
    (0..digits.abs()).fold(number, |number, _| if digits < 0 { number.next_down() } else { number.next_up() })
}

/// 256 or -256, or up to some last digits nearer to 0.
fn near_largest(rng: &mut Rng) -> f64 {
    let nearer = (0..rng.below(8)).fold(LARGEST, |number, _| number.next_down());
    either_sign(nearer, rng)
}

/// From about -256 to about 256 or back, where the difference is longest and every rounding weighs most.
fn from_far_to_far(rng: &mut Rng) -> Free {
    let far = |rng: &mut Rng| LARGEST - LARGEST * rng.fraction() * 2f64.powi(rng.pick(&[-1, -4, -10, -20, -30, -50]));
    in_any_order([-far(rng), far(rng)], rng)
}

fn in_any_order([a, b]: Free, rng: &mut Rng) -> Free {
    if rng.once_in(2) {
        [b, a]
    } else {
        [a, b]
    }
}

/// Anywhere, from far to far, or at the largest numbers.
fn free(rng: &mut Rng) -> Free {
    match rng.below(4) {
        0 => [scattered(rng), scattered(rng)],
        1 => [near_largest(rng), near_largest(rng)],
        _ => from_far_to_far(rng),
    }
}

/// A line of a tile, with its buffer or without, and an area's edge across it. Areas are often published with seven decimal places.
fn tiles(edge: Edge, rng: &mut Rng) -> Drawn {
    let ([west, south, east, north], pixels) = tile_bounds(rng);
    let buffer = rng.pick(&[0.0, pixels]);
    let (width, height) = (east - west, north - south);
    let (bound, size, (low, length)) = match edge {
        Edge::Left => (west - buffer, width, (south, height)),
        Edge::Right => (-(east + buffer), width, (south, height)),
        Edge::Bottom => (south - buffer, height, (west, width)),
        Edge::Top => (-(north + buffer), height, (west, width)),
    };
    let reach = size * rng.pick(&[0.05, 0.3, 0.8, 1.5]);
    let digits: fn(f64) -> f64 = if rng.once_in(2) { rounded } else { |degrees| degrees };
    let across = Across::near(bound, digits(bound + reach * rng.fraction()), digits(bound - reach * rng.fraction()));
    let free = [(); 2].map(|()| digits(low + length * (2.0 * rng.fraction() - 0.5)).clamp(-LARGEST, LARGEST));
    Drawn { across, free }
}

/// The other end, where one alone is near, is anywhere. The line may be at a power of two, where last digits change their length.
fn beside_line(rng: &mut Rng) -> Across {
    let bound = if rng.once_in(3) { rng.pick(&[0.0, -0.0, 1.0, -1.0, 2.0, 128.0, -128.0]) } else { scattered(rng) };
    let far = Across::sorted([bound, scattered(rng), scattered(rng)]);
    let (inner, outer) = (moved(bound, 4, rng).max(bound), moved(bound, 4, rng));
    match rng.below(3) {
        0 => Across::near(bound, far.inner, outer),
        1 => Across::near(bound, inner, far.outer),
        _ => Across::near(bound, inner, outer),
    }
}

fn largest(rng: &mut Rng) -> Across {
    let number = |rng: &mut Rng| if rng.once_in(4) { scattered(rng) } else { near_largest(rng) };
    Across::sorted([(); 3].map(|()| number(rng)))
}

/// Two numbers at a power of two, and one near zero: what it adds to them is about half of their last digit.
fn powers_of_two(rng: &mut Rng) -> Across {
    let power = rng.between(-40, 7) as i32;
    let of = |power: i32| 2f64.powi(power);
    let small = match rng.below(4) {
        0 => of(power - rng.between(0, 4) as i32),
        1 => of(power - rng.between(20, 50) as i32) * rng.fraction(),
        _ => of(power - rng.between(51, 55) as i32) * rng.pick(&[1.0, 1.0, 1.5, 0.75]),
    };
    let numbers = [moved(of(power), 6, rng), moved(of(power + rng.pick(&[0, 0, 1])), 6, rng), either_sign(small, rng)];
    let sign = rng.pick(&[1.0, -1.0]);
    Across::sorted(numbers.map(|number| sign * number))
}

/// Both ends within a small part of the line's own place.
fn along_line(rng: &mut Rng) -> Across {
    let (bound, apart) = (scattered(rng), 2f64.powi(rng.between(-56, -4) as i32));
    Across::near(bound, bound + apart * rng.fraction(), bound - apart * rng.fraction())
}

fn nearly_equal(rng: &mut Rng) -> Free {
    let (number, apart) = (scattered(rng), 2f64.powi(rng.between(-60, -8) as i32));
    let other = (number + apart * rng.fraction()).clamp(-LARGEST, LARGEST);
    in_any_order([number, other], rng)
}

fn alike(rng: &mut Rng) -> Free {
    let number = match rng.below(4) {
        0 => subnormal(rng),
        1 => near_largest(rng),
        _ => scattered(rng),
    };
    match rng.below(6) {
        0 => [number, number],
        1 => [number, -number],
        2 => in_any_order([number, rng.pick(&[0.0, -0.0])], rng),
        3 => [rng.pick(&[0.0, -0.0]), rng.pick(&[0.0, -0.0])],
        4 => [subnormal(rng), subnormal(rng)],
        _ => [number, moved(number, 3, rng).clamp(-LARGEST, LARGEST)],
    }
}

/// Line, outer and inner end across it, free coordinates of the outer and of the inner end. The first has numbers of few digits, and its
/// inward crossing is 0.625 times 1/2^42 from the exact one; the others were looked for and are up to nearly 0.875 times so far off.
const FAR_OFF: [[u64; 5]; 5] = [
    [0x3ff0_0000_0000_0001, 0xbca0_0000_0000_0000, 0x3ff0_0000_0000_0002, 0xc070_0000_0000_0000, 0x406f_ffff_ffff_ffff],
    [0x3ff0_0000_0213_f83d, 0x3e14_262a_e000_0000, 0x3ff0_0000_0361_d134, 0xc06f_ffff_f3bb_1e3c, 0x406f_ffff_ffff_ffa7],
    [0x3ff0_0000_0682_750b, 0x3e20_4d94_f000_0000, 0x3ff0_0000_0817_9748, 0xc06f_ffff_ffe9_3ee2, 0x406f_ffff_f5fa_8845],
    [0x3dea_20fa_a460_0001, 0xbf40_27fc_3f83_c821, 0x3e24_51b9_c0a6_0000, 0xc06f_a928_438b_a23e, 0x406f_eb3c_fd0c_7a7d],
    [0xc060_7ef3_ed4c_1919, 0x4049_ff10_a3c2_75b6, 0xc061_bddf_87c0_1684, 0xc06c_9654_ee64_7b33, 0x406f_cadf_acd6_1fd6],
];

/// Half of them as they are, but mirrored and scaled, which changes no rounding.
fn far_off(rng: &mut Rng) -> Drawn {
    let digits = rng.pick(&[0, 0, 1, 3]);
    let known = rng.pick(&FAR_OFF).map(f64::from_bits);
    let [bound, outer, inner, outer_free, inner_free] = known.map(|number| moved(number, digits, rng));
    let scale = if bound.abs() < 2.0 { 2f64.powi(rng.between(-60, 7) as i32) } else { 1.0 };
    let sign = rng.pick(&[1.0, -1.0]);
    let free = [inner_free, outer_free].map(|number| (sign * number).clamp(-LARGEST, LARGEST));
    let [bound, inner, outer] = [bound, inner, outer].map(|number| scale * number);
    let across = if outer < inner { Across::near(bound, inner, outer) } else { Across::near(-bound, -inner, -outer) };
    Drawn { across, free }
}
