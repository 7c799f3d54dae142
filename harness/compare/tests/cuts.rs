//! The judge of single cuts: what is not as promised is noticed, and said how; and the generator meets what cuts can be like.

use std::collections::BTreeMap;

use compare::cuts::{crossing, judge, kinds, PROVED};
use formats::cuts::Cut;
use formats::passes::Edge;
use formats::same_numbers;
use generator::CutKind;
use reading::{Mistake, Reading};

/// Its exact crossing is (10, 6.5).
const CUT: Cut = Cut { edge: Edge::Right, bound: 10.0, start: (5.0, 5.0), end: (15.0, 8.0) };

fn broken(crossing: (f64, f64)) -> String {
    judge(&Reading::RIGHT, &CUT, crossing).unwrap_err()
}

#[test]
fn what_is_promised_is_judged_and_what_is_proved() {
    let part = |k: u32| 1.0 / (1u64 << k) as f64;
    assert!(judge(&Reading::RIGHT, &CUT, (10.0, 6.5)).is_ok_and(|distance| distance.is_zero()));
    for free in [6.5 + part(PROVED), 6.5 - part(PROVED), 6.5 + part(50)] {
        assert!(judge(&Reading::RIGHT, &CUT, (10.0, free)).is_ok_and(|distance| !distance.is_zero()));
    }
    assert!(broken((10.0, (6.5 + part(42)).next_up())).ends_with("times 1/2^42 from the exact crossing"));
    assert!(broken((10.0, 6.5 - part(40))).ends_with("is 4 times 1/2^42 from the exact crossing"));
    assert!(broken((10.0, (6.5 - part(40)).next_down())).ends_with("times 1/2^40 from the exact crossing"));
    assert!(broken((10.0, 6.5 + part(39))).ends_with("is 2 times 1/2^40 from the exact crossing"));
}

#[test]
fn a_free_coordinate_that_is_no_number_and_a_missed_bound_are_noticed() {
    for free in [f64::NAN, f64::INFINITY, f64::NEG_INFINITY] {
        assert!(broken((10.0, free)).ends_with(&format!("the free coordinate is {free:?}")));
    }
    for fixed in [10.0_f64.next_up(), 6.5, f64::NAN] {
        assert!(broken((fixed, 6.5)).ends_with(&format!("the fixed coordinate is {fixed:?}")));
    }
    let at_zero = Cut { bound: 0.0, start: (-5.0, 5.0), ..CUT };
    assert!(judge(&Reading::RIGHT, &at_zero, (-0.0, 5.75)).is_err());
    assert!(judge(&Reading::RIGHT, &at_zero, (0.0, 5.75)).is_ok());
}

#[test]
fn cuts_that_point_8_does_not_speak_of_are_noticed() {
    for wrong in [
        Cut { end: (10.0, 8.0), ..CUT },
        Cut { start: (11.0, 5.0), ..CUT },
        Cut { bound: f64::NAN, ..CUT },
        Cut { end: (256.0_f64.next_up(), 8.0), ..CUT },
        Cut { start: (5.0, -257.0), ..CUT },
    ] {
        let broken = judge(&Reading::RIGHT, &wrong, (wrong.bound, 6.5)).unwrap_err();
        assert!(broken.ends_with("point 8 doesn't speak of it"), "{broken}");
    }
}

/// `count` cuts of each kind.
fn specimens(count: u64) -> impl Iterator<Item = Cut> {
    kinds().into_iter().flat_map(move |(_, kind)| (0..count).map(move |index| generator::cut(kind, 1, index)))
}

#[test]
fn the_reading_computes_the_crossings_of_the_rust() {
    for cut in specimens(5_000) {
        let [reading, rust] = [crossing(&Reading::RIGHT, &cut), oracle::crossing(&cut)].map(|(x, y)| [x, y]);
        assert!(same_numbers(&reading, &rust), "{cut}: {reading:?} and {rust:?}");
    }
}

/// Other crossings than the Rust's, and yet as near: point 8 doesn't tell them, and they are looked for in frames and passes alone.
#[test]
fn other_roundings_keep_the_promise() {
    for mistake in [Mistake::CrossingFromEnd, Mistake::FusesCrossing] {
        let reading = Reading::with(mistake);
        let mut others = 0;
        for cut in specimens(5_000) {
            let mistaken = crossing(&reading, &cut);
            assert!(judge(&reading, &cut, mistaken).is_ok(), "{mistake:?}, {cut}");
            others += u64::from(mistaken != oracle::crossing(&cut));
        }
        assert!(others > 1_000, "{mistake:?}: {others}");
    }
}

#[test]
fn the_generator_meets_every_shape_at_every_edge() {
    let mut met = BTreeMap::new();
    for cut in specimens(5_000) {
        for (shape, has) in shapes(&cut) {
            *met.entry((cut.edge, shape)).or_insert(false) |= has;
        }
    }
    assert_eq!(met.len(), 4 * 20);
    let missed: Vec<_> = met.iter().filter(|(_, is_met)| !**is_met).collect();
    assert_eq!(missed, []);
}

#[test]
fn every_cut_is_of_its_kind() {
    for (name, kind) in kinds() {
        for index in 0..5_000 {
            let cut = generator::cut(kind, 1, index);
            assert!(is_of_kind(kind, &cut), "{name}: {cut}");
        }
    }
}

/// Whether a cut has what every one of its kind has. Of cuts that are scattered, at tiles, of any bits or far off there is nothing to ask.
fn is_of_kind(kind: CutKind, cut: &Cut) -> bool {
    let [(from, from_free), (to, to_free)] = [cut.start, cut.end].map(|vertex| cut.fixed_and_free(vertex));
    let (across, free) = ([cut.bound, from, to], [from_free, to_free]);
    match kind {
        CutKind::Scattered | CutKind::Tiles | CutKind::Bits | CutKind::FarOff => true,
        CutKind::BesideLine => [from, to].iter().any(|&end| digits_apart(end, cut.bound) <= 4),
        CutKind::OnLine => [from, to].contains(&cut.bound),
        CutKind::Largest => free.iter().all(|free| digits_apart(free.abs(), 256.0) <= 8),
        CutKind::PowersOfTwo => across.into_iter().filter(|&number| is_near_power_of_two(number)).count() >= 2,
        CutKind::Subnormal => across.iter().all(|number| number.abs() < 2.0 * f64::MIN_POSITIVE),
        CutKind::FreeAlike => {
            let is_small = |number: f64| number.abs() < 2.0 * f64::MIN_POSITIVE;
            digits_apart(from_free.abs(), to_free.abs()) <= 3 || free.into_iter().any(is_small)
        }
        CutKind::AlongLine => (to - from).abs() <= 0.125,
        CutKind::StraightAcross => (to_free - from_free).abs() <= 1.0 / 256.0,
    }
}

/// How many doubles lie from the one to the other, of which the zeros are one.
fn digits_apart(a: f64, b: f64) -> u64 {
    let place = |number: f64| {
        let magnitude = number.abs().to_bits() as i64;
        if number < 0.0 {
            -magnitude
        } else {
            magnitude
        }
    };
    place(a).abs_diff(place(b))
}

/// Up to seven last digits from one: six, and one more where two numbers of a cut must not be the same.
fn is_near_power_of_two(number: f64) -> bool {
    let near = |power: f64| digits_apart(number.abs(), power) <= 7;
    let below = f64::from_bits(number.to_bits() & f64::INFINITY.to_bits());
    near(below) || near(2.0 * below)
}

/// Whether a cut has each of these.
fn shapes(cut: &Cut) -> [(&'static str, bool); 20] {
    let [(from, from_free), (to, to_free)] = [cut.start, cut.end].map(|vertex| cut.fixed_and_free(vertex));
    let (bound, starts_in) = (cut.bound, cut.is_in(cut.start));
    let (inner, outer) = if starts_in { (from, to) } else { (to, from) };
    let one_digit_apart = |a: f64, b: f64| a.next_up() == b || b.next_up() == a;
    let bits = |number: f64| number.to_bits();
    let is_subnormal = |number: f64| number.is_subnormal();
    [
        ("outward", starts_in),
        ("inward", !starts_in),
        ("on the line", inner == bound),
        ("a last digit in", one_digit_apart(inner, bound)),
        ("a last digit out", one_digit_apart(outer, bound)),
        ("a last digit in and out", one_digit_apart(inner, bound) && one_digit_apart(outer, bound)),
        ("a line at 256 or -256", bound.abs() == 256.0),
        ("an end at 256 or -256", outer.abs() == 256.0),
        ("free 256 and -256", from_free.abs() == 256.0 && to_free == -from_free),
        ("a line at 0", bits(bound) == 0),
        ("a line at -0", bits(bound) == bits(-0.0)),
        ("a line at 1", bound.abs() == 1.0),
        ("a subnormal line", is_subnormal(bound)),
        ("all subnormal across", [bound, inner, outer].into_iter().all(is_subnormal)),
        ("free subnormal", is_subnormal(from_free) && is_subnormal(to_free)),
        ("free equal", bits(from_free) == bits(to_free) && from_free != 0.0),
        ("free opposite", from_free == -to_free && from_free != 0.0),
        ("free zeros of two signs", from_free == 0.0 && bits(from_free) == bits(-to_free)),
        ("almost along", (to - from).abs() < 1e-12 && (to_free - from_free).abs() > 400.0),
        ("almost straight across", (to - from).abs() > 200.0 && (to_free - from_free).abs() < 1e-12),
    ]
}
