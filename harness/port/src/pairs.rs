//! Two edges at a time: whether they cross, and whether they may share a point. The port's answers against the second reading, which
//! reckons in fractions, and against the Rust's own test, which asks the stand-in of `line_intersection`; that against the stand-in
//! itself, too.

use compare::campaign::{self, Campaign, Checked};
use generator::{Pair, PairKind};
use reading::{Reading, Vertex};

use crate::probe;

/// `count` pairs of each kind.
pub fn compare(seed: u64, count: u64) -> Campaign {
    let kinds = PairKind::ALL.map(|kind| (kind.name(), kind));
    campaign::run("pairs", seed, count, &kinds, |kind, index| check(generator::pair(kind, seed, index)))
}

/// One pair. The label says whether the edges share a point, and whether they cross; a shallow pair crosses by the rounded test alone.
pub fn check(pair: Pair) -> Checked {
    let numbers = numbers(pair);
    let (may_share, crosses) = (probe::may_share_point(&numbers), probe::crosses(&numbers));
    let [a, b, c, d] = pair.map(|(x, y)| Vertex { x, y });
    let shared = Reading::RIGHT.shares_point([a, b], [c, d]);
    let crosses_rounded = Reading::ROUNDED.edges_cross([a, b], [c, d]);
    let answers = [
        ("may share a point, second reading", may_share, Reading::RIGHT.may_share_point([a, b], [c, d])),
        ("may share a point, stand-in", may_share, oracle::finds_intersection(pair)),
        ("cross, second reading", crosses, Reading::RIGHT.edges_cross([a, b], [c, d])),
        ("cross, the Rust", crosses, oracle::edges_cross(pair)),
    ];
    match answers.iter().find(|(_, port, other)| port != other) {
        Some((name, port, other)) => Err(format!("{name}: {port} and {other}, {}", shown(pair))),
        None => Ok(label(shared, crosses_rounded)),
    }
}

/// As the port is lent them.
pub fn numbers([a, b, c, d]: Pair) -> [f64; 8] {
    [a.0, a.1, b.0, b.1, c.0, c.1, d.0, d.1]
}

fn label(shared: Option<bool>, crosses_rounded: bool) -> &'static str {
    match (shared, crosses_rounded) {
        (None, true) => "crosses off the grid",
        (None, false) => "off the grid",
        (Some(true), true) => "crosses",
        (Some(true), false) => "shared",
        (Some(false), true) => "shallow",
        (Some(false), false) => "no point",
    }
}

/// The numbers, and their bits.
fn shown(pair: Pair) -> String {
    let bits = numbers(pair).map(|number| format!("{:016x}", number.to_bits()));
    format!("{pair:?}, {}", bits.join(" "))
}
