//! The source's results to answers.

use geo::{Geometry, LineString, Polygon};

use crate::polygons;

const NOTHING: u8 = 0;
const DROPPED: u8 = 1;
const UNCHANGED: u8 = 2;
const LISTED: u8 = 3;
const CUT: u8 = 4;

/// The answer to a geometry of which the source made this and counted so many drops. A polygon that comes back as it was is
/// unchanged: the source says no more.
pub fn answer(input: &Geometry<f64>, result: Option<&Geometry<f64>>, guard_count: u16, out: &mut Vec<u8>) {
    let Some(result) = result else {
        let dropped = guard_count == 1 && is_dropped_whole(input);
        return header(if dropped { DROPPED } else { NOTHING }, guard_count, 0, out);
    };
    let (before, after) = (polygons(input), polygons(result));
    if before == after {
        return header(UNCHANGED, guard_count, 0, out);
    }
    assert_eq!(before.len(), after.len(), "the source doesn't say which part was left out");
    header(LISTED, guard_count, after.len() as u16, out);
    for (index, (before, after)) in before.iter().zip(after).enumerate() {
        count(index, out);
        if before == after {
            out.extend([UNCHANGED, 0]);
        } else {
            out.extend([CUT, 0]);
            put_rings(after, out);
        }
    }
}

/// Whether one drop is that of the whole: a polygon's always is, a multipolygon's if it has a coordinate that is not finite.
fn is_dropped_whole(input: &Geometry<f64>) -> bool {
    let is_finite = |ring: &LineString<f64>| ring.0.iter().all(|c| c.x.is_finite() && c.y.is_finite());
    let is_finite_part = |part: &Polygon<f64>| is_finite(part.exterior()) && part.interiors().iter().all(is_finite);
    matches!(input, Geometry::Polygon(_)) || !polygons(input).iter().all(is_finite_part)
}

fn header(answer: u8, guard_count: u16, listed: u16, out: &mut Vec<u8>) {
    out.push(answer);
    out.extend(guard_count.to_le_bytes());
    out.extend(listed.to_le_bytes());
}

fn count(count: usize, out: &mut Vec<u8>) {
    out.extend((count as u16).to_le_bytes());
}

fn put_rings(polygon: &Polygon<f64>, out: &mut Vec<u8>) {
    count(1 + polygon.interiors().len(), out);
    for ring in std::iter::once(polygon.exterior()).chain(polygon.interiors()) {
        count(ring.0.len(), out);
        out.reserve(16 * ring.0.len());
        for coord in &ring.0 {
            out.extend(written(coord.x));
            out.extend(written(coord.y));
        }
    }
}

/// A NaN is written with document 01's bits.
fn written(number: f64) -> [u8; 8] {
    let bits = if number.is_nan() { 0x7ff8_0000_0000_0000 } else { number.to_bits() };
    bits.to_le_bytes()
}
