//! Two edges at a time: the port's crossing test and its test for a shared point against the second reading and the Rust, the share
//! that every test run takes; and pairs that are made on purpose.

use compare::shallow::SHALLOW;
use generator::{Pair, PairKind};
use port::{pairs, probe};

#[test]
fn pairs_agree() {
    pairs::compare(1, 60_000).assert_agreed(PairKind::ALL.len() as u64 * 60_000);
}

/// With the edges and the ends of each in any order: whether a point is shared doesn't hang on it.
fn assert_sort(pair: Pair, label: &str) {
    let [a, b, c, d] = pair;
    assert_eq!(pairs::check(pair), Ok(label), "{pair:?}");
    let may_share = probe::may_share_point(&pairs::numbers(pair));
    for ends in [[b, a, c, d], [a, b, d, c], [b, a, d, c], [c, d, a, b], [d, c, a, b], [c, d, b, a], [d, c, b, a]] {
        assert!(pairs::check(ends).is_ok(), "{:?}", pairs::check(ends));
        assert_eq!(probe::may_share_point(&pairs::numbers(ends)), may_share, "{ends:?}");
    }
}

#[test]
fn edges_of_the_four_rings() {
    for shallow in SHALLOW {
        assert_sort(shallow.ends, if shallow.share_a_point { "crosses" } else { "shallow" });
    }
}

/// Of small numbers, which no product rounds: what is exactly so is so by the rounded test, too.
#[test]
fn edges_of_small_numbers() {
    let slanted = [(1., 1.), (7., 4.)];
    for (c, d, label) in [
        ((2., 4.), (4., 1.), "crosses"),
        ((3., 2.), (2., 5.), "shared"),
        ((7., 4.), (9., 1.), "shared"),
        ((7., 4.), (1., 1.), "shared"),
        ((3., 2.), (5., 3.), "shared"),
        ((5., 3.), (9., 5.), "shared"),
        ((7., 4.), (9., 5.), "shared"),
        ((9., 5.), (11., 6.), "no point"),
        ((9., 5.), (2., 5.), "no point"),
        ((1., 2.), (7., 5.), "no point"),
        ((3., 3.), (5., 9.), "no point"),
        ((5., 3.), (5., 3.), "shared"),
        ((9., 5.), (9., 5.), "no point"),
        ((4., 3.), (4., 3.), "no point"),
    ] {
        let [a, b] = slanted;
        assert_sort([a, b, c, d], label);
        // As far as the grid goes, and down to its step, where edges are too short to cross; and beyond both.
        let times = |scale: f64| [a, b, c, d].map(|(x, y)| (scale * x, scale * y));
        let step = 1. / (1u64 << 48) as f64;
        assert_sort(times(16.), label);
        assert_sort(times(step), if label == "crosses" { "shared" } else { label });
        assert_sort(times(64.), if label == "crosses" { "crosses off the grid" } else { "off the grid" });
        assert_sort(times(step / 2.), "off the grid");
    }
    assert_sort([(0., 0.), (0., 0.), (-0., 0.), (0., -0.)], "shared");
}

/// An end exactly on the other edge, and four ends exactly of one line, with more digits than the rounded test keeps.
#[test]
fn touches_and_overlaps_that_are_taken_for_crossings() {
    let exactly = |kind: PairKind, wanted: &str| {
        let pairs = (0..200_000).map(|index| generator::pair(kind, 2, index));
        let met =
            pairs.filter(|&pair| pairs::check(pair) == Ok(wanted)).inspect(|&pair| assert_sort(pair, wanted)).count();
        assert!(met >= 50, "{kind:?}: {met}");
    };
    exactly(PairKind::Touching, "crosses");
    exactly(PairKind::Collinear, "crosses");
    exactly(PairKind::EndOnLine, "shallow");
}

/// A number that is missing is a NaN, which is off the grid; what is lent behind the eight is not looked at.
#[test]
fn numbers_that_are_missing_or_behind() {
    let crossing = [1., 1., 7., 4., 2., 4., 4., 1.];
    let apart = [1., 1., 7., 4., 1., 2., 7., 5.];
    assert_eq!([probe::crosses(&crossing), probe::may_share_point(&crossing)], [true, true]);
    assert_eq!([probe::crosses(&apart), probe::may_share_point(&apart)], [false, false]);
    for lent in 0..8 {
        for pair in [crossing, apart] {
            assert_eq!([probe::crosses(&pair[..lent]), probe::may_share_point(&pair[..lent])], [false, true], "{lent}");
        }
    }
    for pair in [crossing, apart] {
        let longer = [&pair[..], &[f64::NAN]].concat();
        assert_eq!(probe::crosses(&longer), probe::crosses(&pair));
        assert_eq!(probe::may_share_point(&longer), probe::may_share_point(&pair));
    }
}
