//! Which issue an exterior has, and where: the Rust says no more than that it has one. Its own predicates are asked about two
//! coordinates or two edges at a time, in the order that document 02's point 1 gives. Where what is found that way contradicts
//! their verdict on the whole ring the harness stops: then they were asked wrongly, and no position would count.

use std::collections::HashMap;

use formats::reason::Reason;
use geo::{Coord, Line, LineString, Polygon};
use tylertoo::clip::opened as clip;

/// In a ring of up to so many coordinates every pair of edges is asked about. No ring of a frame has more, cut or not.
const ASKED_ONE_BY_ONE: usize = 2_048;

/// The first issue of a closed ring: short before repeated before crossing.
#[derive(Clone, Copy, Debug, PartialEq, Eq)]
pub enum Issue {
    Short,
    /// The position of the first of two neighbours that are near.
    Repeated(u32),
    /// Two edges by their numbers, the lower first.
    Crossing(u32, u32),
}

impl Issue {
    /// The reason that it is, by the numbers of a short ring, a repeated corner and a crossing.
    pub fn reason(self, [short, repeated, crossing]: [u8; 3]) -> Reason {
        match self {
            Issue::Short => Reason::without_positions(short),
            Issue::Repeated(position) => Reason { number: repeated, first: position, second: 0 },
            Issue::Crossing(lower, higher) => Reason { number: crossing, first: lower, second: higher },
        }
    }
}

/// The first issue of the exterior as the polygon holds it.
pub fn issue_of(polygon: &Polygon<f64>, assume_simple: bool) -> Option<Issue> {
    let ring = &polygon.exterior().0;
    let issue = if ring.len() < 4 {
        Some(Issue::Short)
    } else if let Some(position) = first_repeat(ring) {
        Some(Issue::Repeated(position as u32))
    } else if assume_simple {
        None
    } else {
        first_crossing(ring).map(|(lower, higher)| Issue::Crossing(lower as u32, higher as u32))
    };
    assert_eq!(
        issue.is_some(),
        clip::has_structural_issues(polygon, assume_simple),
        "{issue:?} was found, and the Rust says otherwise of the whole ring"
    );
    issue
}

/// The position of the first two neighbours that are near, those of the last segment excepted.
fn first_repeat(ring: &[Coord<f64>]) -> Option<usize> {
    (0..ring.len() - 2).find(|&k| are_near(ring[k], ring[k + 1]))
}

/// Asked of a ring of the two, a coordinate at NaN, which is near nothing, and the closing one: it is not short, and no other
/// neighbours can be its issue. Where the first of them holds a NaN `Polygon::new` closes it once more, behind a segment that is
/// as little near.
pub fn are_near(a: Coord<f64>, b: Coord<f64>) -> bool {
    let nowhere = Coord { x: f64::NAN, y: f64::NAN };
    let ring = LineString::new(vec![a, b, nowhere, a]);
    clip::has_structural_issues(&Polygon::new(ring, Vec::new()), true)
}

/// Whether two neighbours in the exterior as the polygon holds it are near, those of the last segment excepted: the one issue that is left
/// of a ring that is not short where edges are not looked at.
pub fn has_repeated(polygon: &Polygon<f64>) -> bool {
    assert!(polygon.exterior().0.len() >= 4, "a short ring is an issue by itself");
    clip::has_structural_issues(polygon, true)
}

/// Of all pairs of edges that cross the one with the lowest lower and then the lowest higher number.
pub fn first_crossing(ring: &[Coord<f64>]) -> Option<(usize, usize)> {
    let first = if ring.len() <= ASKED_ONE_BY_ONE { first_of_all(ring) } else { first_of_visited(ring) };
    assert_eq!(
        first.is_some(),
        clip::has_self_intersecting_edges(ring),
        "the first pair that crosses was found to be {first:?}, and the Rust says otherwise of the whole ring"
    );
    first
}

fn first_of_all(ring: &[Coord<f64>]) -> Option<(usize, usize)> {
    let edges = ring.len().saturating_sub(1);
    let line = |k: usize| Line::new(ring[k], ring[k + 1]);
    let crossed_by = |lower: usize| (lower + 1..edges).find(|&higher| cross(line(lower), line(higher)));
    (0..edges).find_map(|lower| Some((lower, crossed_by(lower)?)))
}

/// The least of the pairs that the Rust's own search visits, which are all but those whose boxes are apart. It visits edges and
/// not their numbers: of edges that are the same the first stands for all, as what crosses one crosses each of them.
fn first_of_visited(ring: &[Coord<f64>]) -> Option<(usize, usize)> {
    let bits = |line: Line<f64>| [line.start.x, line.start.y, line.end.x, line.end.y].map(f64::to_bits);
    let mut numbers = HashMap::new();
    for (number, ends) in ring.windows(2).enumerate() {
        numbers.entry(bits(Line::new(ends[0], ends[1]))).or_insert(number);
    }
    let mut first: Option<(usize, usize)> = None;
    clip::any_edge_pair(ring, |a, b| {
        if cross(a, b) {
            let (a, b) = (numbers[&bits(a)], numbers[&bits(b)]);
            let pair = (a.min(b), a.max(b));
            first = Some(first.map_or(pair, |first| first.min(pair)));
        }
        false
    });
    first
}

/// Asked of a ring of the first edge, the way from its end to the second, and the second: an edge that begins where another ends
/// lies on neither side of it there, so that the way between crosses neither. Whatever else the Rust asks of edges that cross it asks
/// of the two alone.
pub fn cross(a: Line<f64>, b: Line<f64>) -> bool {
    clip::has_self_intersecting_edges(&[a.start, a.end, b.start, b.end])
}

#[cfg(test)]
mod tests {
    use super::*;
    use crate::convert::{coords_of, polygon_of};

    fn issue(ring: &[(f64, f64)], assume_simple: bool) -> Option<Issue> {
        issue_of(&polygon_of(&[ring.to_vec()]), assume_simple)
    }

    #[test]
    fn short_comes_before_repeated_and_repeated_before_crossing() {
        assert_eq!(issue(&[(2., 2.), (2., 2.), (2., 2.)], false), Some(Issue::Short));
        let bow_tie = [(2., 2.), (8., 8.), (8., 2.), (2., 8.)];
        assert_eq!(issue(&bow_tie, false), Some(Issue::Crossing(0, 2)));
        assert_eq!(issue(&bow_tie, true), None);
        let repeated = [(2., 2.), (8., 8.), (8., 2.), (8., 2.), (2., 8.)];
        assert_eq!(issue(&repeated, false), Some(Issue::Repeated(2)));
        assert_eq!(issue(&repeated, true), Some(Issue::Repeated(2)));
    }

    /// The last segment is excepted; the one before it is not, which the closing makes the last but one.
    #[test]
    fn repeats_are_found_up_to_the_last_segment() {
        let triangle = [(2., 2.), (8., 2.), (8., 8.)];
        assert_eq!(issue(&[&triangle[..], &[(2., 2.), (2., 2.)]].concat(), false), None);
        assert_eq!(issue(&[&triangle[..], &[(8., 8.), (2., 2.)]].concat(), false), Some(Issue::Repeated(2)));
        assert_eq!(issue(&[&triangle[..], &[(8., 8.)]].concat(), false), Some(Issue::Repeated(2)));
    }

    /// Crossing edges are no repeat.
    #[test]
    fn repeats_are_told_from_other_issues() {
        let repeated = |ring: &[(f64, f64)]| has_repeated(&polygon_of(&[ring.to_vec()]));
        assert!(!repeated(&[(2., 2.), (8., 8.), (8., 2.), (2., 8.)]));
        assert!(!repeated(&[(2., 2.), (8., 2.), (8., 8.), (2., 2.), (2., 2.)]));
        assert!(repeated(&[(2., 2.), (8., 2.), (8., 2.), (8., 8.)]));
        assert!(repeated(&[(2., 2.), (8., 2.), (8., 8.), (8., 8.)]));
    }

    /// One with a NaN is closed once more, and equals no neighbour.
    #[test]
    fn a_coordinate_with_a_nan_is_near_nothing() {
        let nan = Coord { x: f64::NAN, y: 2. };
        let number = Coord { x: 2., y: 2. };
        assert!(are_near(number, number));
        assert!(![(nan, nan), (nan, number), (number, nan)].iter().any(|&(a, b)| are_near(a, b)));
        let infinite = Coord { x: f64::INFINITY, y: 2. };
        assert!(!are_near(infinite, infinite));
    }

    /// Crosses at 0 and 4, and at 1 and 3: the lower of the lowest pair decides, whatever comes first from the west.
    #[test]
    fn the_first_pair_is_lowest_by_lower_number() {
        let ring = [(2., 6.), (3., 7.), (4., 2.), (6., 7.), (3., 5.), (2., 8.), (2., 6.)];
        let coords = coords_of(&ring);
        let edge = |k: usize| Line::new(coords[k], coords[k + 1]);
        let pairs = (0..6).flat_map(|a| (a + 1..6).map(move |b| (a, b)));
        assert_eq!(pairs.filter(|&(a, b)| cross(edge(a), edge(b))).collect::<Vec<_>>(), [(0, 4), (1, 3)]);
        assert_eq!(issue(&ring, false), Some(Issue::Crossing(0, 4)));
    }

    /// Rings on a grid, some of whose edges are the same, on either side of the scan's limit; and one with a NaN among them.
    #[test]
    fn the_pairs_that_the_search_visits_have_the_first_of_all() {
        let mut found = 0;
        for n in 4..240 {
            let mut ring: Vec<_> = (0..n).map(|k| ((k * k % 31) as f64, (k * (n + k * k) % 29) as f64)).collect();
            if n % 5 == 0 {
                ring[n / 2].0 = f64::NAN;
            }
            let mut sound: Vec<_> = (0..n).map(|k| (k as f64, (k * k) as f64)).collect();
            sound.push(sound[0]);
            for ring in [ring, sound] {
                let ring = coords_of(&ring);
                assert_eq!(first_of_visited(&ring), first_of_all(&ring), "{n} coordinates");
                found += usize::from(first_of_all(&ring).is_some());
            }
        }
        assert!((200..240).contains(&found), "{found} cross");
    }
}
