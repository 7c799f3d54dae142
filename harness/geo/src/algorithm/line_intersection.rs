//! `line_intersection` as document 02's point 5 has it: exact where all eight numbers are on the grid, and a point elsewhere, as
//! document 01's base leaves the test out there.
//!
//! By its published behaviour the real one, whose code is not at hand, asks whether two closed segments share a point by orientations of
//! the crate `robust`. Here these are reckoned in whole numbers, and the tests go in the order known of it: boxes, the sides of one
//! segment's ends, the sides of the other's.

use crate::{Coord, Line};

/// The numbers of the grid are whole multiples of 1/2^48,
const STEPS_IN_ONE: f64 = (1u64 << 48) as f64;

/// at most 256 in magnitude.
const MOST_STEPS: f64 = 256.0 * STEPS_IN_ONE;

/// A point where the two closed segments share one, and where a number is off the grid; else none. The source asks only whether
/// there is a point: any may be answered, and this is always the start of the first segment.
pub fn line_intersection(a: Line<f64>, b: Line<f64>) -> Option<Coord<f64>> {
    match (on_grid(a), on_grid(b)) {
        (Some(on_a), Some(on_b)) if !share_a_point(on_a, on_b) => None,
        _ => Some(a.start),
    }
}

/// A coordinate in steps of the grid.
#[derive(Clone, Copy, Debug, PartialEq, Eq)]
struct Place {
    x: i128,
    y: i128,
}

/// The segment's ends, where they are on the grid.
fn on_grid(line: Line<f64>) -> Option<[Place; 2]> {
    let place = |end: Coord<f64>| Some(Place { x: steps(end.x)?, y: steps(end.y)? });
    Some([place(line.start)?, place(line.end)?])
}

/// Taking a number times a power of two rounds nothing, so that it is whole where the number is on the grid.
fn steps(number: f64) -> Option<i128> {
    let steps = number * STEPS_IN_ONE;
    (steps.abs() <= MOST_STEPS && steps.fract() == 0.0).then_some(steps as i128)
}

/// Where the boxes meet and neither segment lies on one side of the other. On one line the boxes decide alone.
fn share_a_point(a: [Place; 2], b: [Place; 2]) -> bool {
    boxes_meet(a, b) && !lies_on_one_side(a, b) && !lies_on_one_side(b, a)
}

fn boxes_meet([a, b]: [Place; 2], [c, d]: [Place; 2]) -> bool {
    let ranges_meet = |a: i128, b: i128, c: i128, d: i128| a.max(b) >= c.min(d) && c.max(d) >= a.min(b);
    ranges_meet(a.x, b.x, c.x, d.x) && ranges_meet(a.y, b.y, c.y, d.y)
}

/// Whether both ends of `segment` are strictly on one side of the line.
fn lies_on_one_side(line: [Place; 2], segment: [Place; 2]) -> bool {
    let [start, end] = segment.map(|place| orientation(line, place));
    start * end > 0
}

/// 1 to the left of the line, -1 to the right, 0 on it. Differences are under 2^58 in magnitude, so the products under 2^116.
fn orientation([a, b]: [Place; 2], c: Place) -> i128 {
    ((b.x - a.x) * (c.y - a.y) - (b.y - a.y) * (c.x - a.x)).signum()
}

#[cfg(test)]
mod tests {
    use super::*;

    fn line([ax, ay, bx, by]: [f64; 4]) -> Line<f64> {
        Line::new(Coord { x: ax, y: ay }, Coord { x: bx, y: by })
    }

    fn finds_a_point(a: [f64; 4], b: [f64; 4]) -> bool {
        line_intersection(line(a), line(b)).is_some()
    }

    #[test]
    fn the_grid_ends_where_document_02_says() {
        let step = 1.0 / STEPS_IN_ONE;
        for (number, whole) in
            [(0.0, 0), (-0.0, 0), (step, 1), (-3.0 * step, -3), (2.5, 5 << 47), (256.0, 1 << 56), (-256.0, -(1 << 56))]
        {
            assert_eq!(steps(number), Some(whole), "{number:e}");
        }
        let off_grid = [step / 2.0, 1.5 * step, 256.0_f64.next_up(), -256.0_f64.next_up(), 1e300, f64::MIN_POSITIVE];
        for number in off_grid.into_iter().chain([f64::NAN, f64::INFINITY, f64::NEG_INFINITY, 0.1]) {
            assert_eq!(steps(number), None, "{number:e}");
        }
    }

    /// From 16 on a double has no digit below 1/2^48.
    #[test]
    fn every_double_from_16_to_256_is_on_the_grid() {
        for number in [16.0, 16.0_f64.next_up(), 17.3, 31.9, 32.0_f64.next_down(), 100.7, 256.0_f64.next_down()] {
            assert_eq!(steps(number).map(|steps| steps as f64 / STEPS_IN_ONE), Some(number));
            assert_eq!(steps(-number), steps(number).map(|steps| -steps));
        }
    }

    #[test]
    fn one_number_off_the_grid_is_enough_for_a_point() {
        let (a, b) = ([0.0, 0.0, 1.0, 1.0], [3.0, 0.0, 3.0, 1.0]);
        assert!(!finds_a_point(a, b));
        for number in [0.1, f64::NAN, f64::INFINITY, 256.0_f64.next_up(), 1.0 / (1u64 << 49) as f64] {
            for place in 0..4 {
                let with = |mut ends: [f64; 4]| {
                    ends[place] = number;
                    ends
                };
                assert!(finds_a_point(with(a), b) && finds_a_point(a, with(b)), "{number} at {place}");
            }
        }
    }

    /// Document 02's point 5, rings that tell its readings apart: their edges 0 and 2.
    #[test]
    fn edges_that_the_rounded_test_takes_for_crossing() {
        for (name, a, b, shared) in [
            ("no point", [47.9, 73.0, 22.7, 60.4], [73.1, 85.6, -81.7, 8.2], false),
            ("a touch", [112.3, 14.8, 12.7, 48.0], [61.6, 31.7, 21.1, 45.2], true),
            ("an overlap", [-25.1, 62.2, -254.9, -91.0], [48.4, 111.2, -113.9, 3.0], true),
            ("an end on the line", [18.6, 79.2, -37.2, 42.0], [88.8, 126.0, -9.0, 60.8], false),
        ] {
            assert!(on_grid(line(a)).is_some() && on_grid(line(b)).is_some(), "{name}");
            assert_eq!([finds_a_point(a, b), finds_a_point(b, a)], [shared; 2], "{name}");
        }
    }

    /// The widest differences there are, in the grid's corners.
    #[test]
    fn the_corners_of_the_grid_have_room() {
        let step = 1.0 / (1u64 << 45) as f64;
        let diagonal = [-256.0, -256.0, 256.0, 256.0];
        assert!(finds_a_point(diagonal, [-256.0, 256.0, 256.0, -256.0]));
        assert!(finds_a_point(diagonal, [256.0, 256.0, -256.0, 256.0]));
        assert!(!finds_a_point(diagonal, [256.0, 256.0 - step, -256.0 + step, -256.0]));
        assert!(finds_a_point(diagonal, [256.0, 256.0 - step, -256.0, -256.0 + step]));
    }

    /// Every pair of segments among 4 x 4 places, points included, against shares of a whole that mix the ends of both to one point.
    #[test]
    fn small_segments_share_a_point_where_mixes_of_their_ends_agree() {
        let place = |k: usize| ((k % 4) as i32, (k / 4 % 4) as i32);
        let mut shared = 0;
        for ends in 0..16usize.pow(4) {
            let small = [0, 4, 8, 12].map(|shift| place(ends >> shift));
            let [a, b, c, d] = small.map(|(x, y)| Place { x: x.into(), y: y.into() });
            let expected = mixes_agree(small);
            assert_eq!(share_a_point([a, b], [c, d]), expected, "{small:?}");
            shared += u32::from(expected);
        }
        assert!((10_000..50_000).contains(&shared), "{shared}");
    }

    /// A whole of up to 18 is enough: twice the longest product of two differences.
    fn mixes_agree([a, b, c, d]: [(i32, i32); 4]) -> bool {
        let mix = |p: (i32, i32), q: (i32, i32), share: i32, whole: i32| {
            ((whole - share) * p.0 + share * q.0, (whole - share) * p.1 + share * q.1)
        };
        let mixes = (1..=18).flat_map(|whole| (0..=whole).map(move |share| (share, whole)));
        mixes.into_iter().any(|(share, whole)| {
            let of_first = mix(a, b, share, whole);
            (0..=whole).any(|share| mix(c, d, share, whole) == of_first)
        })
    }
}
