//! Single cuts of the port against exact crossings and the Rust, the share that every test run takes; cuts worked by hand; and answers
//! that are not as promised, each of which is noticed.

use formats::cuts::{vertex, Cut};
use formats::passes::Edge;
use formats::Coord;
use generator::CutKind;
use port::cuts::{self, check, check_given, given, Given};

/// Half of what is proved is not kept by every cut: nothing tighter by a power of two could be.
#[test]
fn cuts_are_near_the_exact_crossing() {
    let comparison = cuts::compare(1, 20_000);
    comparison.assert_agreed(CutKind::ALL.len() as u64 * 20_000);
    assert_eq!(comparison.furthest().map(|furthest| furthest.label()), Some("above 1/2^43"));
}

/// A cut at Left, or turned and mirrored so that it is at another line.
fn cut(edge: Edge, bound: f64, [ax, ay, bx, by]: [f64; 4]) -> Cut {
    let sign = if matches!(edge, Edge::Left | Edge::Bottom) { 1.0 } else { -1.0 };
    let end = |fixed: f64, free: f64| vertex(edge, sign * fixed, free);
    Cut { edge, bound: sign * bound, start: end(ax, ay), end: end(bx, by) }
}

/// Inward and outward; the third cut, to a vertex beside, is near.
#[test]
fn worked_cuts_are_exact() {
    for edge in Edge::ALL {
        for (bound, ends, free) in [
            (10.0, [5.0, 5.0, 15.0, 8.0], 6.5),
            (10.0, [10.0, 7.0, 5.0, 9.0], 7.0),
            (0.0, [-1.0, -2.0, 1.0, 2.0], 0.0),
            (-0.0, [0.0, 256.0, -256.0, -256.0], 256.0),
            (256.0, [256.0, 3.0, -256.0, 3.0], 3.0),
            (0.0, [-5e-324, -64.0, 5e-324, 0.5], -31.75),
        ] {
            let cut = cut(edge, bound, ends);
            assert!(check(&cut).is_ok() && check(&cut.turned()).is_ok(), "{cut}");
            let Given { passed, .. } = given(&cut);
            assert_eq!([passed[0], passed[2]].map(|crossing| cut.fixed_and_free(crossing)), [(cut.bound, free); 2]);
        }
    }
}

/// The start is 2^-53 below 0, the line and the end are the first and second double above 1: the two differences round towards each other
/// by 2^-53 each and meet, so that their quotient is 1, and the free coordinates' difference rounds up to 512.
#[test]
fn a_cut_of_short_numbers_is_above_an_eighth_of_the_promise() {
    let (line, end) = (1.0_f64.next_up(), 1.0_f64.next_up().next_up());
    for edge in Edge::ALL {
        let cut = cut(edge, line, [-f64::EPSILON / 2.0, -256.0, end, 256.0_f64.next_down()]);
        let measured = check(&cut).unwrap();
        assert_eq!((measured.cut, measured.label()), (cut, "above 1/2^43"));
        assert_eq!(cut.fixed_and_free(measured.crossing).1, 256.0);
        assert!((1.25 - measured.distance.times(43)).abs() < 1e-14, "{measured}");
    }
}

/// One vertex of what is given moved, however little, or replaced; and vertices that are missing.
#[test]
fn differences_are_noticed() {
    let changes: [fn(Coord) -> Coord; 8] = [
        |(x, y)| (x.next_up(), y),
        |(x, y)| (x, y.next_down()),
        |(x, y)| (x + 1e-10, y),
        |(x, y)| (x, y - 1e-10),
        |(x, y)| (y, x),
        |(x, _)| (x, f64::NAN),
        |(_, y)| (f64::INFINITY, y),
        |_| (10.0, 10.0),
    ];
    for edge in Edge::ALL {
        let cut = cut(edge, 10.0, [5.0, 5.0, 15.0, 8.0]);
        let right = given(&cut);
        assert!(check_given(&cut, &right).is_ok());
        for change in changes {
            for place in 0..right.passed.len() {
                let mut wrong = right.clone();
                wrong.passed[place] = change(wrong.passed[place]);
                assert!(check_given(&cut, &wrong).is_err(), "{wrong:?}");
            }
            for place in 0..right.ring.len() {
                let mut wrong = right.clone();
                wrong.ring[place] = change(wrong.ring[place]);
                assert!(check_given(&cut, &wrong).is_err(), "{wrong:?}");
            }
        }
        for (passed, ring) in [(2, 5), (3, 4), (0, 0)] {
            let wrong = Given { passed: right.passed[..passed].to_vec(), ring: right.ring[..ring].to_vec() };
            assert!(check_given(&cut, &wrong).unwrap_err().contains("vertices of the pass"));
        }
    }
}
