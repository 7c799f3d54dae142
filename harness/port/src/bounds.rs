//! `TileBounds`: the port's methods against the Rust's, on any bit patterns.

use compare::campaign::{self, Campaign, Checked};
use formats::{same_number, same_numbers, Bounds};
use oracle::TileBounds;

use crate::probe;

/// `count` pairs of bounds with a buffer.
pub fn compare(seed: u64, count: u64) -> Campaign {
    campaign::run("bounds", seed, count, &[("bits", ())], |(), index| {
        let (a, b, buffer) = generator::bounds(seed, index);
        check(&a, &b, buffer)
    })
}

fn check(a: &Bounds, b: &Bounds, buffer: f64) -> Checked {
    let (rust_a, rust_b) = (tile_bounds(a), tile_bounds(b));
    let mut expanded = rust_a;
    expanded.expand(&rust_b);
    let buffered = TileBounds::new(a[0] - buffer, a[1] - buffer, a[2] + buffer, a[3] + buffer);
    let checks = [
        ("empty", same_numbers(&probe::empty(), &numbers(&TileBounds::empty()))),
        ("is_valid", probe::is_valid(a) == rust_a.is_valid()),
        ("width", same_number(probe::width(a), rust_a.width())),
        ("height", same_number(probe::height(a), rust_a.height())),
        ("buffered", same_numbers(&probe::buffered(a, buffer), &numbers(&buffered))),
        ("expand", same_numbers(&probe::expand(a, b), &zeros_of_first(a, b, numbers(&expanded)))),
        (
            "intersect",
            same_numbers(&probe::intersect(a, b), &zeros_of_first(a, b, numbers(&rust_a.intersect(&rust_b)))),
        ),
    ];
    match checks.iter().find(|(_, same)| !same) {
        Some((method, _)) => Err(format!("{method} of {}, {}, buffer {:016x}", bits(a), bits(b), buffer.to_bits())),
        None if rust_a.is_valid() => Ok("valid"),
        None => Ok("not valid"),
    }
}

/// Of two zeros Rust's minimum and maximum may keep either; the port keeps the first.
fn zeros_of_first(a: &Bounds, b: &Bounds, mut kept: Bounds) -> Bounds {
    for k in 0..4 {
        if a[k] == 0.0 && b[k] == 0.0 {
            kept[k] = a[k];
        }
    }
    kept
}

fn tile_bounds(&[west, south, east, north]: &Bounds) -> TileBounds {
    TileBounds::new(west, south, east, north)
}

fn numbers(bounds: &TileBounds) -> Bounds {
    [bounds.lng_min, bounds.lat_min, bounds.lng_max, bounds.lat_max]
}

fn bits(bounds: &Bounds) -> String {
    bounds.map(|number| format!("{:016x}", number.to_bits())).join(" ")
}
