//! Numbers as they are said, written as WKT and put into pictures.

/// The sizes, from and up to, that are written without an exponent.
const PLAIN: std::ops::Range<f64> = 1e-5..1e16;

/// The fewest digits that read back as the same double, with an exponent where it is very large or very near to zero: `0.1`, `1e300`.
/// Minus zero is `-0`, any NaN `NaN`, and an infinity `inf` or `-inf`.
pub fn text(number: f64) -> String {
    if number == 0.0 || PLAIN.contains(&number.abs()) || !number.is_finite() {
        number.to_string()
    } else {
        format!("{number:e}")
    }
}
