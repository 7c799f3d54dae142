//! Pairs of edges that are hard to tell apart: nearly parallel and nearly on one line, on one line exactly, touching, overlapping,
//! crossing and degenerate; on the grid of Point 5 and off it.

use crate::pair::{Coord, Pair, HIGHEST, STEPS};
use crate::rng::Rng;

/// A pair whose numbers are all on the grid.
pub fn on_grid(rng: &mut Rng) -> Pair {
    // Every double from 16 to 256 is on the grid, so that many pairs stay as they are.
    let shrunk = 2f64.powi([0, 0, 0, 0, -1, -3, -8, -30][rng.between(0, 7) as usize]);
    let pair = nudged(shape(rng).map(|(x, y)| (shrunk * x, shrunk * y)), rng);
    Pair(pair.0.map(|number| (number.clamp(-HIGHEST, HIGHEST) * STEPS).round_ties_even() / STEPS))
}

/// A pair with a number off the grid.
pub fn off_grid(rng: &mut Rng) -> Pair {
    loop {
        let pair = match rng.between(0, 99) {
            0..=9 => with_one(on_grid(rng), rng, f64::next_up),
            10 => with_one(scaled(rng), rng, |number| f64::INFINITY.copysign(number)),
            _ => scaled(rng),
        };
        if !pair.is_on_grid() {
            return pair;
        }
    }
}

/// The pair with one number changed.
fn with_one(mut pair: Pair, rng: &mut Rng, change: fn(f64) -> f64) -> Pair {
    let number = &mut pair.0[rng.between(0, 7) as usize];
    *number = change(*number);
    pair
}

fn scaled(rng: &mut Rng) -> Pair {
    let (x_scale, y_scale) = scales(rng);
    nudged(shape(rng).map(|(x, y)| (x_scale * x, y_scale * y)), rng)
}

/// Powers of two for x and y: decimals as they are, numbers finer than the grid, above 256, of any exponent, so small that products
/// underflow, and so large that they overflow.
fn scales(rng: &mut Rng) -> (f64, f64) {
    let (x, y) = match rng.between(0, 9) {
        0..=2 => (0, 0),
        3 => (rng.between(-40, -4), rng.between(-40, -4)),
        4 => (rng.between(1, 40), rng.between(-4, 40)),
        5 => (rng.between(-1_060, 1_014), rng.between(-1_060, 1_014)),
        6 => (rng.between(-40, 0), rng.between(-1_074, -900)),
        7 => (rng.between(-12, 0), rng.between(-1_074, -1_060)),
        8 => (rng.between(480, 1_014), rng.between(-80, 540)),
        _ => (rng.between(500, 510), rng.between(500, 510)),
    };
    let (x, y) = if rng.once_in(2) { (x, y) } else { (y, x) };
    (power(x), power(y))
}

/// Two to any exponent a double has, subnormal ones too.
fn power(exponent: i64) -> f64 {
    let half = exponent / 2;
    2f64.powi(half as i32) * 2f64.powi((exponent - half) as i32)
}

/// The ends of two edges, at most 256 in magnitude or little above.
fn shape(rng: &mut Rng) -> [Coord; 4] {
    match rng.between(0, 11) {
        0..=2 => decimals(rng),
        3..=6 => between(rng),
        7 => parallel(rng),
        8 => collinear(rng),
        9 => touching(rng),
        10 => [(); 4].map(|()| (HIGHEST * rng.unit(), HIGHEST * rng.unit())),
        _ => degenerate(rng),
    }
}

/// Four places of a line of tenths, hundredths or thousandths: on one line but for the rounding of the decimals.
fn decimals(rng: &mut Rng) -> [Coord; 4] {
    let unit = [10, 100, 1_000][rng.between(0, 2) as usize];
    let most = [unit, 16 * unit, 256 * unit][rng.between(0, 2) as usize];
    let most_step = (most / 8).min([9, 99, 999][rng.between(0, 2) as usize]).max(1);
    let (x, y) = (rng.between(-most / 2, most / 2), rng.between(-most / 2, most / 2));
    let (dx, dy) = (rng.between(-most_step, most_step), rng.between(-most_step, most_step));
    let steps = most / 2 / most_step;
    [(); 4].map(|()| {
        let place = rng.between(-steps, steps);
        ((x + place * dx) as f64 / unit as f64, (y + place * dy) as f64 / unit as f64)
    })
}

/// An edge and two places on its line, rounded.
fn between(rng: &mut Rng) -> [Coord; 4] {
    let [a, b] = [(); 2].map(|()| (HIGHEST * rng.unit(), HIGHEST * rng.unit()));
    let along = |way: f64| (a.0 + way * (b.0 - a.0), a.1 + way * (b.1 - a.1));
    [a, b, along(rng.unit()), along(0.5 + 0.5 * rng.unit())]
}

/// An edge and one of nearly the same direction, near its line.
fn parallel(rng: &mut Rng) -> [Coord; 4] {
    let [a, b, c, d] = between(rng);
    let off = power(-rng.between(1, 56));
    let aside = |(x, y): Coord, by: f64| (x - by * (b.1 - a.1), y + by * (b.0 - a.0));
    [a, b, aside(c, off * rng.unit()), aside(d, off * rng.unit())]
}

/// Four places of a line of whole numbers over a power of two: exactly on it, apart, touching or overlapping.
fn collinear(rng: &mut Rng) -> [Coord; 4] {
    let most = 1 << rng.between(4, 50);
    let unit = HIGHEST / most as f64;
    let steps = rng.between(1, (most / 4).min(9));
    let (x, y) = (rng.between(-most / 2, most / 2), rng.between(-most / 2, most / 2));
    let most_step = most / 2 / steps;
    let (dx, dy) = (rng.between(-most_step, most_step), rng.between(-most_step, most_step));
    [(); 4].map(|()| {
        let place = rng.between(-steps, steps);
        (unit * (x + place * dx) as f64, unit * (y + place * dy) as f64)
    })
}

/// An edge and one that begins on it, exactly, and ends anywhere.
fn touching(rng: &mut Rng) -> [Coord; 4] {
    let [a, b, c, _] = collinear(rng);
    let ends = [a, b, c, (HIGHEST * rng.unit(), HIGHEST * rng.unit())];
    if rng.once_in(2) {
        ends
    } else {
        [ends[0], ends[1], ends[3], ends[2]]
    }
}

/// An edge of no length, or of about 1e-10 in both axes.
fn degenerate(rng: &mut Rng) -> [Coord; 4] {
    let [a, b, c, _] = between(rng);
    let short = if rng.once_in(2) { 0.0 } else { 2e-10 };
    let near = (c.0 + short * rng.unit(), c.1 + short * rng.unit());
    if rng.once_in(2) {
        [a, b, c, near]
    } else {
        [c, near, a, b]
    }
}

/// The pair as it is, or with some numbers a few last bits off.
fn nudged([a, b, c, d]: [Coord; 4], rng: &mut Rng) -> Pair {
    let mut pair = Pair::new([a, b], [c, d]);
    if rng.once_in(3) {
        let often = rng.between(1, 4);
        pair.0.iter_mut().filter(|number| number.is_normal()).for_each(|number| {
            if rng.once_in(often) {
                *number = f64::from_bits(number.to_bits().wrapping_add_signed(rng.between(-3, 3)));
            }
        });
    }
    pair
}
