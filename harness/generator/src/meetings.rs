//! How two edges meet, by the rounded test and exactly: what the generator looks for pairs with. It is code of its own, so that what
//! is looked for doesn't hang on what is compared.

use formats::Coord;

/// Two edges: from the first end to the second, and from the third to the fourth.
pub type Pair = [Coord; 4];

/// Document 01's test: boxes that are not apart, no edge shorter than 1e-10, and ends on opposite sides by rounded products.
pub fn cross_rounded(pair: &Pair) -> bool {
    let [a, b, c, d] = *pair;
    let side = |a: Coord, b: Coord, c: Coord| (b.0 - a.0) * (c.1 - a.1) - (b.1 - a.1) * (c.0 - a.0);
    let opposite = |d: f64, e: f64| (d > 0.0 && e < 0.0) || (d < 0.0 && e > 0.0);
    let short = |a: Coord, b: Coord| (a.0 - b.0).abs() < 1e-10 && (a.1 - b.1).abs() < 1e-10;
    let apart = |a: f64, b: f64, c: f64, d: f64| a.max(b) < c.min(d) || c.max(d) < a.min(b);
    opposite(side(c, d, a), side(c, d, b))
        && opposite(side(a, b, c), side(a, b, d))
        && !apart(a.0, b.0, c.0, d.0)
        && !apart(a.1, b.1, c.1, d.1)
        && !short(a, b)
        && !short(c, d)
}

/// Whether they share one point that is an end of neither, exactly. None where the numbers are too long for whole numbers of 128 bits:
/// not all multiples of 1/2^52, or one of 512 or more in magnitude.
pub fn cross_properly(pair: &Pair) -> Option<bool> {
    let whole = |number: f64| {
        let steps = number * (1u64 << 52) as f64;
        (number.abs() < 512.0 && steps == steps.trunc()).then_some(steps as i128)
    };
    let mut wholes = [(0, 0); 4];
    for (place, end) in wholes.iter_mut().zip(pair) {
        *place = (whole(end.0)?, whole(end.1)?);
    }
    let [a, b, c, d] = wholes;
    let side = |a: (i128, i128), b: (i128, i128), c: (i128, i128)| {
        ((b.0 - a.0) * (c.1 - a.1) - (b.1 - a.1) * (c.0 - a.0)).signum()
    };
    Some(side(c, d, a) * side(c, d, b) < 0 && side(a, b, c) * side(a, b, d) < 0)
}
