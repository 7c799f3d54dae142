//! Where single numbers come from.

use formats::Bounds;

use crate::rng::Rng;

/// A small whole number, now and then a half or a negative zero: touches and ties are common.
pub fn grid(rng: &mut Rng) -> f64 {
    let whole = rng.between(-3, 7) as f64;
    match rng.below(12) {
        0 => whole + 0.5,
        1 if whole == 0.0 => -0.0,
        _ => whole,
    }
}

/// A few round numbers with offsets on both sides of 1e-10.
pub fn near(rng: &mut Rng) -> f64 {
    rng.pick(&[0.0, 0.0, 1.0, 2.0, 4.0, -1.0, 5.0]) + near_offset(rng)
}

pub fn near_offset(rng: &mut Rng) -> f64 {
    let size = rng.pick(&[0.0, 0.0, 0.0, 5e-11, 1e-10, 1e-10_f64.next_down(), 1e-10_f64.next_up(), 1.5e-10, 2e-10]);
    either_sign(size, rng)
}

/// Magnitudes around 1e150 and up to where differences overflow, among small numbers.
pub fn huge(rng: &mut Rng) -> f64 {
    let magnitude = match rng.below(3) {
        0 => around_1e150(rng),
        1 => rng.pick(&[1e300, 1e308, 1.7e308, f64::MAX, f64::MAX / 2.0]),
        _ => rng.between(0, 12) as f64,
    };
    either_sign(magnitude, rng)
}

/// Small numbers with one around 1e150 now and then: an overlay that one coordinate decides.
pub fn seldom_huge(rng: &mut Rng) -> f64 {
    let magnitude = if rng.once_in(8) { around_1e150(rng) } else { rng.between(0, 12) as f64 };
    either_sign(magnitude, rng)
}

fn around_1e150(rng: &mut Rng) -> f64 {
    rng.pick(&[9e149, 1e150, 1e150_f64.next_down(), 1e150_f64.next_up(), 3e150])
}

pub fn either_sign(magnitude: f64, rng: &mut Rng) -> f64 {
    if rng.once_in(2) {
        -magnitude
    } else {
        magnitude
    }
}

/// Any bit pattern at all, the rare classes made common.
pub fn any_bits(rng: &mut Rng) -> f64 {
    let sign = rng.bits() << 63;
    let magnitude = match rng.below(10) {
        0 => 0x7ff0_0000_0000_0000,
        1 => 0x7ff0_0000_0000_0001 | rng.bits() >> 12,
        2 => 0,
        3 => rng.bits() >> 12,
        4 => 1,
        5 => f64::MAX.to_bits() - rng.below(3) as u64,
        6 => f64::MIN_POSITIVE.to_bits(),
        7 => (rng.between(1, 10) as f64).to_bits(),
        _ => rng.bits() >> 1,
    };
    f64::from_bits(sign | magnitude)
}

/// Any finite bit pattern.
pub fn finite_bits(rng: &mut Rng) -> f64 {
    loop {
        let number = any_bits(rng);
        if number.is_finite() {
            return number;
        }
    }
}

/// Bounds of any bit patterns, in order half the time, with equal numbers now and then.
pub fn any_bounds(rng: &mut Rng) -> Bounds {
    let mut bounds = [(); 4].map(|()| any_bits(rng));
    if rng.once_in(2) {
        order(&mut bounds);
    }
    if rng.once_in(4) {
        bounds[rng.below(4)] = bounds[rng.below(4)];
    }
    bounds
}

/// Swaps low and high where they stand the wrong way round.
pub fn order(bounds: &mut Bounds) {
    for (low, high) in [(0, 2), (1, 3)] {
        if bounds[low] > bounds[high] {
            bounds.swap(low, high);
        }
    }
}
