//! Document 02, point 5: whether two closed segments share a point. It is reckoned exactly, in fractions: a segment is its start and
//! a way, a point of it is the start and a share of the way from 0 to 1, and the shares are solved for.

use std::iter::successors;
use std::ops::{Add, Sub};

use crate::{Mistake, Reading, Vertex};

/// The grid has the whole multiples of 1/2^48 that are at most 256 in magnitude.
const STEPS_IN_ONE: f64 = (1u64 << 48) as f64;
const LARGEST: f64 = 256.0;

/// Numbers of fewer steps than that have room: the products of differences below are under 2^126.
const STEPS_WITH_ROOM: i128 = 1 << 61;

/// How often a mistaken reading that goes on off the grid halves the steps, to find some that all eight numbers are whole in.
const HALVINGS: usize = 50;

/// A point, or the way from one to another, in steps.
#[derive(Clone, Copy, Debug, PartialEq, Eq)]
struct Steps {
    x: i128,
    y: i128,
}

impl Steps {
    const NONE: Steps = Steps { x: 0, y: 0 };

    /// 0 where the two ways are parallel.
    fn cross(self, other: Steps) -> i128 {
        self.x * other.y - self.y * other.x
    }

    /// How far the other way goes along this one, in a measure of this way's own.
    fn dot(self, other: Steps) -> i128 {
        self.x * other.x + self.y * other.y
    }
}

impl Add for Steps {
    type Output = Steps;

    fn add(self, other: Steps) -> Steps {
        Steps { x: self.x + other.x, y: self.y + other.y }
    }
}

impl Sub for Steps {
    type Output = Steps;

    fn sub(self, other: Steps) -> Steps {
        Steps { x: self.x - other.x, y: self.y - other.y }
    }
}

#[derive(Clone, Copy, Debug)]
struct Segment {
    start: Steps,
    way: Steps,
}

impl Segment {
    fn new(start: Steps, end: Steps) -> Segment {
        Segment { start, way: end - start }
    }
}

/// A share of a way, as a fraction with a positive denominator.
#[derive(Clone, Copy, Debug)]
struct Share {
    numerator: i128,
    denominator: i128,
}

impl Share {
    fn new(numerator: i128, denominator: i128) -> Share {
        Share { numerator: numerator * denominator.signum(), denominator: denominator.abs() }
    }

    /// From 0 to 1.
    fn is_on_way(self) -> bool {
        0 <= self.numerator && self.numerator <= self.denominator
    }

    /// 0 or 1.
    fn is_end(self) -> bool {
        self.numerator == 0 || self.numerator == self.denominator
    }
}

impl Reading {
    /// Whether the two closed segments share a point, or a number of theirs is off the grid, so that it is not asked.
    pub fn may_share_point(&self, a: [Vertex; 2], b: [Vertex; 2]) -> bool {
        self.shares_point(a, b).unwrap_or(true)
    }

    /// Whether they share one; none where a number is off the grid.
    pub fn shares_point(&self, a: [Vertex; 2], b: [Vertex; 2]) -> Option<bool> {
        let segments = |in_one: f64| {
            let steps = |end: Vertex| Some(Steps { x: self.steps(end.x, in_one)?, y: self.steps(end.y, in_one)? });
            Some((Segment::new(steps(a[0])?, steps(a[1])?), Segment::new(steps(b[0])?, steps(b[1])?)))
        };
        let (a, b) = match self.mistake {
            Some(Mistake::CoarserGrid) => segments(STEPS_IN_ONE / 2.0),
            Some(Mistake::FinerGrid) => segments(STEPS_IN_ONE * 2.0),
            Some(Mistake::ExactOffGrid) => {
                successors(Some(STEPS_IN_ONE), |in_one| Some(in_one * 2.0)).take(HALVINGS).find_map(segments)
            }
            _ => segments(STEPS_IN_ONE),
        }?;
        Some(self.meet(a, b))
    }

    /// Whether the number is on the grid.
    pub fn is_on_grid(&self, number: f64) -> bool {
        self.steps(number, STEPS_IN_ONE).is_some()
    }

    /// A number that is on the grid, in steps of which one has so many.
    fn steps(&self, number: f64, in_one: f64) -> Option<i128> {
        let steps = whole_steps(number, in_one)?;
        let too_large = match self.mistake {
            Some(Mistake::GridWithout256) => number.abs() >= LARGEST,
            Some(Mistake::ExactOffGrid) => steps.abs() >= STEPS_WITH_ROOM,
            _ => number.abs() > LARGEST,
        };
        let left_out = self.makes(Mistake::GridWithoutZero) && number == 0.0;
        (!too_large && !left_out).then_some(steps)
    }

    fn meet(&self, a: Segment, b: Segment) -> bool {
        let (from_a, turn) = (b.start - a.start, a.way.cross(b.way));
        if turn == 0 {
            return !self.makes(Mistake::ParallelShareNone)
                && !self.makes(Mistake::ProperCrossingsOnly)
                && self.parallel_meet(a, b);
        }
        // a.start + of_a x a.way = b.start + of_b x b.way, by Cramer's rule.
        let (of_a, of_b) = (Share::new(from_a.cross(b.way), turn), Share::new(from_a.cross(a.way), turn));
        if self.makes(Mistake::EndOnLineIsShared) && (of_a.is_end() || of_b.is_end()) {
            return true;
        }
        if self.makes(Mistake::ProperCrossingsOnly) && (of_a.is_end() || of_b.is_end()) {
            return false;
        }
        of_a.is_on_way() && of_b.is_on_way()
    }

    /// Segments of parallel lines meet where these are one line and the stretches of it do. A point is parallel to anything.
    fn parallel_meet(&self, a: Segment, b: Segment) -> bool {
        let (line, other) = if a.way == Steps::NONE { (b, a) } else { (a, b) };
        let to_start = other.start - line.start;
        let to_end = to_start + other.way;
        if line.way == Steps::NONE {
            return to_start == Steps::NONE;
        }
        if line.way.cross(to_start) != 0 {
            return false;
        }
        if self.makes(Mistake::EndOnLineIsShared) {
            return true;
        }
        let (start, end, length) = (line.way.dot(to_start), line.way.dot(to_end), line.way.dot(line.way));
        start.min(end) <= length && start.max(end) >= 0
    }
}

/// The number in steps of which one has so many, a power of two, where it is a whole count of them: there and back it is the same.
fn whole_steps(number: f64, in_one: f64) -> Option<i128> {
    let steps = (number * in_one) as i64;
    (steps as f64 / in_one == number).then_some(i128::from(steps))
}

#[cfg(test)]
mod tests {
    use super::*;

    const STEP: f64 = 1.0 / STEPS_IN_ONE;

    fn ends([ax, ay, bx, by]: [f64; 4]) -> [Vertex; 2] {
        [Vertex { x: ax, y: ay }, Vertex { x: bx, y: by }]
    }

    /// Of the one segment with the other, either of them first and either end of each first.
    fn shared(reading: &Reading, a: [f64; 4], b: [f64; 4]) -> Option<bool> {
        let turned = |[ax, ay, bx, by]: [f64; 4]| [bx, by, ax, ay];
        let answer = reading.shares_point(ends(a), ends(b));
        for (a, b) in [(b, a), (turned(a), b), (a, turned(b)), (turned(b), turned(a))] {
            assert_eq!(reading.shares_point(ends(a), ends(b)), answer, "{a:?} {b:?}");
        }
        assert_eq!(reading.may_share_point(ends(a), ends(b)), answer != Some(false));
        answer
    }

    #[test]
    fn the_grid_ends_where_document_02_says() {
        let on_grid = |number: f64| Reading::RIGHT.is_on_grid(number);
        assert!([0.0, -0.0, STEP, -STEP, 7.0 * STEP, 256.0, -256.0, 100.1, -16.1, 2.5].into_iter().all(on_grid));
        let beyond = [256.0_f64.next_up(), -256.0_f64.next_up(), 257.0, 1e300, f64::NAN, f64::INFINITY, -f64::INFINITY];
        let between = [STEP / 2.0, -1.5 * STEP, f64::MIN_POSITIVE, 0.1, 8.0_f64.next_up()];
        assert!(!beyond.into_iter().chain(between).any(on_grid));
        assert!(on_grid(256.0_f64.next_down()) && on_grid(16.0_f64.next_up()) && !on_grid(16.0_f64.next_down()));
    }

    #[test]
    fn edges_of_document_02() {
        let edges = [
            ([47.9, 73.0, 22.7, 60.4], [73.1, 85.6, -81.7, 8.2], false),
            ([112.3, 14.8, 12.7, 48.0], [61.6, 31.7, 21.1, 45.2], true),
            ([-25.1, 62.2, -254.9, -91.0], [48.4, 111.2, -113.9, 3.0], true),
            ([18.6, 79.2, -37.2, 42.0], [88.8, 126.0, -9.0, 60.8], false),
        ];
        let by = |reading: Reading| edges.map(|(a, b, _)| shared(&reading, a, b).expect("all are on the grid"));
        assert_eq!(by(Reading::RIGHT), edges.map(|(_, _, shared)| shared));
        assert_eq!(by(Reading::with(Mistake::ProperCrossingsOnly)), [false, false, false, false]);
        assert_eq!(by(Reading::with(Mistake::ParallelShareNone)), [false, true, false, false]);
        assert_eq!(by(Reading::with(Mistake::EndOnLineIsShared)), [false, true, true, true]);
    }

    #[test]
    fn points_and_segments_of_one_line() {
        let share = |a: [f64; 4], b: [f64; 4]| shared(&Reading::RIGHT, a, b) == Some(true);
        let slanted = [16.0, 16.0, 64.0, 32.0];
        assert!(share(slanted, [40.0, 24.0, 40.0, 24.0]), "a point of it");
        assert!(share(slanted, [64.0, 32.0, 64.0, 32.0]), "its end");
        assert!(!share(slanted, [67.0, 33.0, 67.0, 33.0]), "a point of its line");
        assert!(!share(slanted, [40.0, 24.0 + STEP * 16.0, 40.0, 24.0 + STEP * 16.0]), "a point beside it");
        assert!(share([1.0; 4], [1.0; 4]) && share([0.0; 4], [-0.0; 4]) && !share([1.0; 4], [2.0; 4]), "two points");
        assert!(share(slanted, slanted) && share(slanted, [28.0, 20.0, 52.0, 28.0]), "a stretch of it");
        assert!(share(slanted, [64.0, 32.0, 112.0, 48.0]), "an end in common");
        assert!(!share(slanted, [67.0, 33.0, 112.0, 48.0]), "beyond it on its line");
        assert!(!share(slanted, [16.0, 16.0 + STEP * 16.0, 64.0, 32.0 + STEP * 16.0]), "beside it");
    }

    /// A corner of the grid has the longest products there are.
    #[test]
    fn the_corners_of_the_grid_have_room() {
        let (diagonal, step) = ([-256.0, -256.0, 256.0, 256.0], 1.0 / (1u64 << 45) as f64);
        let share = |b: [f64; 4]| shared(&Reading::RIGHT, diagonal, b) == Some(true);
        assert!(share([-256.0, 256.0, 256.0, -256.0]) && share(diagonal) && share([256.0; 4]));
        assert!(!share([256.0, 256.0 - step, -256.0 + step, -256.0]));
        assert!(share([256.0, 256.0 - step, -256.0, -256.0 + step]));
    }

    /// Off the grid it is not asked, but by a mistake: as long as the numbers have room.
    #[test]
    fn off_the_grid_it_is_not_asked() {
        let (a, b) = ([0.1, 0.3, 0.6, 0.8], [0.4, 0.6, 0.3, 0.5]);
        assert_eq!(shared(&Reading::RIGHT, a, b), None);
        let mistaken = Reading::with(Mistake::ExactOffGrid);
        assert_eq!(shared(&mistaken, a, b), Some(false));
        assert_eq!(shared(&mistaken, a, [0.4, 0.6, 0.3, 1e30]), None);
        assert_eq!(shared(&mistaken, a, [0.4, 0.6, f64::NAN, 0.5]), None);
    }

    /// Every pair of segments among 5 x 3 places, points included, against the definition: weights of the ends of each, whole numbers of
    /// one sum, that make the same point. A sum of 16, twice the longest product of two differences, is enough.
    #[test]
    fn small_segments_share_a_point_where_weights_say_so() {
        const PLACES: usize = 15;
        let place = |k: usize| ((k % 5) as i32, (k / 5) as i32);
        let mut counts = [0; 2];
        for quadruple in 0..PLACES.pow(4) {
            let [a, b, c, d] = [1, PLACES, PLACES.pow(2), PLACES.pow(3)].map(|unit| place(quadruple / unit % PLACES));
            let of = |(ax, ay): (i32, i32), (bx, by): (i32, i32)| ends([ax, ay, bx, by].map(f64::from));
            let expected = weights_agree([a, b], [c, d]);
            assert_eq!(Reading::RIGHT.shares_point(of(a, b), of(c, d)), Some(expected), "{a:?} {b:?} {c:?} {d:?}");
            counts[usize::from(expected)] += 1;
        }
        assert!(counts.iter().all(|&times| times > 10_000), "{counts:?}");
    }

    fn weights_agree([a, b]: [(i32, i32); 2], [c, d]: [(i32, i32); 2]) -> bool {
        (1..=16).any(|sum| {
            (0..=sum).any(|s| {
                let (x, y) = ((sum - s) * a.0 + s * b.0, (sum - s) * a.1 + s * b.1);
                (0..=sum).any(|t| (sum - t) * c.0 + t * d.0 == x && (sum - t) * c.1 + t * d.1 == y)
            })
        })
    }
}
