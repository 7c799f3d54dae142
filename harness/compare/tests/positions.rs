//! Document 02's point 1: exteriors worked by hand, with the reason and the positions that the Rust, asked pair by pair, and the second
//! reading tell of them and what mistaken readings tell; and that the generator makes every reason at every place.

use std::collections::{BTreeMap, BTreeSet};

use compare::calls::slice_call;
use compare::worked::{self, exterior_of_each_reason, late_repeat, Beside, ACROSS_EAST, BOUNDS};
use formats::answer::{Answer, Listed, ListedPart};
use formats::calls::{RingCall, SliceAnswer, SliceCall};
use formats::frame::{Frame, MULTIPOLYGON, POLYGON};
use formats::reason::Reason;
use formats::{closed_length, Bounds, Coord, Ring};
use generator::{Kind, Style};
use reading::{Mistake, Reading};

fn reason(number: u8, first: u32, second: u32) -> Reason {
    Reason { number, first, second }
}

fn call(flags: u8, ring: &[Coord]) -> SliceCall {
    worked::slice_call(flags, &[ring.to_vec()], Beside::default())
}

/// The number of a slice call on the ring alone, by a reading.
fn code(reading: &Reading, flags: u8, ring: &[Coord]) -> i64 {
    slice_call(reading, &call(flags, ring)).answer
}

fn assert_told(reason: Reason, flags: u8, ring: &[Coord]) {
    let expected = Ok(SliceAnswer::Overlay(reason));
    let call = call(flags, ring);
    assert_eq!(call.after(&oracle::slice_call(&call)).difference(&call.after(&expected)), None, "the Rust, {call}");
    assert_eq!(slice_call(&Reading::RIGHT, &call).difference(&call.after(&expected)), None, "the reading, {call}");
}

#[test]
fn every_reason_is_told_by_a_slice_call() {
    let mut numbers = BTreeSet::new();
    for (reason, flags, ring) in exterior_of_each_reason() {
        flags.iter().for_each(|&flags| assert_told(reason, flags, &ring));
        numbers.insert(reason.number);
    }
    assert_eq!(numbers, (1..=10).collect());
}

/// As a polygon, and as a part of a multipolygon behind one that is not listed.
#[test]
fn every_reason_is_told_by_a_frame() {
    let apart = vec![worked::APART.to_vec()];
    for (reason, flags, ring) in exterior_of_each_reason() {
        let is_inside = ring.iter().all(|&(x, y)| x.min(y) >= 0. && x.max(y) <= 10.);
        for &flags in flags {
            let told = |kind: u8, parts: Vec<Vec<Ring>>, index: u16| {
                let frame = Frame { kind, flags, bounds: BOUNDS, buffer: 0.0, parts }.encode();
                let listed =
                    if kind == MULTIPOLYGON && is_inside { Listed::Unchanged } else { Listed::Overlay(reason) };
                let parts = vec![ListedPart { index, listed }];
                let expected = Answer::Listed { guard_count: 0, parts }.encode();
                assert_eq!(oracle::answer(&frame, usize::MAX).as_ref(), Ok(&expected), "the Rust, {ring:?}");
                assert_eq!(Reading::RIGHT.answer(&frame, usize::MAX), Ok(expected), "the reading, {ring:?}");
            };
            told(POLYGON, vec![vec![ring.clone()]], 0);
            told(MULTIPOLYGON, vec![apart.clone(), vec![ring.clone()]], 1);
        }
    }
}

/// `assume_simple` leaves out the search for edges that cross.
#[test]
fn no_crossing_is_told_where_the_caller_vouches() {
    for (_, _, ring) in exterior_of_each_reason() {
        for flags in [1, 3] {
            let call = call(flags, &ring);
            let by_the_rust = call.after(&oracle::slice_call(&call)).answer;
            for (side, code) in [("the Rust", by_the_rust), ("the reading", slice_call(&Reading::RIGHT, &call).answer)]
            {
                let is_overlay = code & 0xff == 5;
                assert!(!is_overlay || !matches!(Reason::of_code(code).number, 8 | 10), "{side}, {ring:?}");
            }
        }
    }
}

/// Only a cut has so many corners, and only a slice call room to tell them.
#[test]
fn a_position_over_65_535_is_told() {
    let (reason, ring) = late_repeat();
    for flags in [1, 3] {
        assert_told(reason, flags, &ring);
        let wrapped = Reason { first: reason.first - 65_536, ..reason };
        let mistaken = Reading::with(Mistake::PositionsIn16Bits);
        assert_eq!(code(&mistaken, flags, &ring), SliceAnswer::Overlay(wrapped).code());
    }
}

/// Flags, exterior, the mistake, and the reason that it gives instead.
type Mistaken<'a> = (u8, &'a [Coord], Mistake, Reason);

#[test]
fn mistaken_readings_tell_what_the_mistakes_say() {
    use Mistake::*;

    let two_crossings: &[Coord] = &[(2., 6.), (3., 7.), (4., 2.), (6., 7.), (3., 5.), (2., 8.), (2., 6.)];
    let closing_crosses: &[Coord] = &[(2., 2.), (2., 8.), (6., 4.), (9., 9.), (9., 4.), (5., 9.)];
    let two_repeats: &[Coord] = &[(2., 2.), (8., 2.), (8., 8.), (8., 8.), (2., 8.), (2., 8.), (2., 2.)];
    let repeat_and_crossing: &[Coord] = &[(2., 2.), (8., 8.), (8., 2.), (2., 8.), (2., 8.), (2., 2.)];
    let one_place: &[Coord] = &[(2., 2.), (2., 2.), (2., 2.)];
    let touching_east: &[Coord] = &[(10., 2.), (20., 2.), (20., 8.), (10., 8.), (10., 2.)];
    let touching_itself: &[Coord] = &[(5., 3.), (-4., 6.), (9., 2.), (2., 4.), (5., 3.)];
    let mistaken: [Mistaken; 17] = [
        (0, two_crossings, HigherMajor, reason(8, 1, 3)),
        (0, two_crossings, LastCrossingFound, reason(8, 1, 3)),
        (0, two_crossings, HigherEdgeFirst, reason(8, 4, 0)),
        (0, two_crossings, PositionsFromOne, reason(8, 1, 5)),
        (0, two_crossings, EdgesByEnd, reason(8, 1, 5)),
        (0, two_crossings, ReasonsMerged, reason(1, 0, 0)),
        (0, closing_crosses, ClosingEdgeLast, reason(8, 2, 4)),
        (0, closing_crosses, EdgesByEnd, reason(8, 0, 2)),
        (3, two_repeats, LastRepeatFound, reason(7, 4, 0)),
        (3, two_repeats, SecondOfRepeated, reason(7, 3, 0)),
        (0, repeat_and_crossing, CrossingBeforeRepeated, reason(8, 0, 2)),
        (3, one_place, RepeatedBeforeShort, reason(7, 0, 0)),
        (0, touching_east, SwapsCutReasons, reason(10, 0, 0)),
        (0, touching_east, SecondOfRepeated, reason(9, 1, 0)),
        (0, touching_itself, SwapsCutReasons, reason(9, 0, 3)),
        (0, touching_itself, CutNumberedInInput, reason(10, 0, 2)),
        (0, &ACROSS_EAST, BridgeHasPosition, reason(4, 1, 0)),
    ];
    for (flags, ring, mistake, reason) in mistaken {
        let told = code(&Reading::with(mistake), flags, ring);
        assert_eq!(told, SliceAnswer::Overlay(reason).code(), "{mistake:?}, {ring:?}");
    }
    // The repeat is in the segment before the closing one.
    let unclosed = [(2., 2.), (8., 2.), (8., 8.), (8., 8.)];
    assert_eq!(code(&Reading::with(ExceptsBeforeClosing), 0, &unclosed), 2);
}

/// A ring of 40 edges, sound but for two pairs of neighbours that are swapped: edges 2 and 4 cross in the east, and edges 19 and 21
/// in the west, which a sweep meets first.
#[test]
fn the_first_pair_is_not_the_first_from_the_west() {
    let mut ring = worked::regular(41, (5., 5.), 4.);
    ring.swap(3, 4);
    ring.swap(20, 21);
    assert_told(reason(8, 2, 4), 0, &ring);
    let swept = code(&Reading::with(Mistake::FirstHitOfSweep), 0, &ring);
    assert_eq!(swept, SliceAnswer::Overlay(reason(8, 19, 21)).code());
}

/// The specimens that are looked at, and how often a reason has to be met at a place.
const LOOKED_AT: u64 = 20_000;
const ENOUGH: u32 = 20;

/// How often each reason was told with a first position of 0 or another, of a ring that is scanned or swept.
type Met = BTreeMap<(u8, &'static str, &'static str), u32>;

fn assert_met(met: &Met, numbers: &[u8]) {
    for &number in numbers {
        for shape in [("0", "scanned"), ("0", "swept"), ("other", "scanned"), ("other", "swept")] {
            let times = met.get(&(number, shape.0, shape.1)).copied().unwrap_or(0);
            assert!(times >= ENOUGH, "reason {number} at {shape:?} is met {times} times");
        }
    }
}

fn count(met: &mut Met, reason: Reason, coordinates: usize) {
    let place = if reason.first == 0 { "0" } else { "other" };
    let looked_at = if coordinates > 33 { "swept" } else { "scanned" };
    *met.entry((reason.number, place, looked_at)).or_default() += 1;
}

#[test]
fn the_generator_makes_every_reason_in_slice_calls() {
    let mut met = Met::new();
    for call in (0..LOOKED_AT).map(|index| generator::slice_call(Style::Tangled, 1, index)) {
        if let Ok(SliceAnswer::Overlay(reason)) = oracle::slice_call(&call) {
            let exterior = &call.rings().expect("the lengths fit")[0];
            count(&mut met, reason, looked_at(reason, call.bounds, call.buffer, exterior));
        }
    }
    assert_met(&met, &[7, 8, 9, 10]);
}

/// How many coordinates the ring has that the reason is told of: of the input's issues the input, of the cut's the cut.
fn looked_at(reason: Reason, bounds: Bounds, buffer: f64, exterior: &Ring) -> usize {
    match reason.number {
        7 | 8 => closed_length(exterior),
        _ => cut_length(bounds, buffer, exterior),
    }
}

/// How many coordinates the exterior is cut to.
fn cut_length([west, south, east, north]: Bounds, buffer: f64, exterior: &Ring) -> usize {
    let bounds = [west - buffer, south - buffer, east + buffer, north + buffer];
    let cut = RingCall { bounds, ..worked::ring_call(exterior, Beside::default()) };
    oracle::ring_call(&cut).expect("every slice has room").ring.len()
}

/// What the port has to choose among where it sweeps: one pair alone is found whatever is taken for the first.
#[test]
fn the_generator_makes_long_rings_that_cross_themselves_more_than_once() {
    let crosses_more_than_once = |call: &SliceCall| {
        let exterior = &call.rings().expect("the lengths fit")[0];
        let is_told = matches!(oracle::slice_call(call), Ok(SliceAnswer::Overlay(Reason { number: 8, .. })));
        is_told && closed_length(exterior) > 33 && crossings(exterior).nth(1).is_some()
    };
    let calls = (0..LOOKED_AT).map(|index| generator::slice_call(Style::Tangled, 1, index));
    let met =
        calls.filter(|call| call.rings().is_ok_and(|rings| !rings.is_empty())).filter(crosses_more_than_once).count();
    assert!(met >= 300, "{met} of {LOOKED_AT}");
}

/// The pairs of edges of the ring, closed, that cross.
fn crossings(ring: &Ring) -> impl Iterator<Item = [Coord; 4]> {
    let closed = [&ring[..], &ring[..1]].concat();
    let pairs = oracle::visited_edge_pairs(&closed[..closed_length(ring)]);
    pairs.into_iter().filter(|pair| oracle::first_crossing(pair).is_some())
}

#[test]
fn the_generator_makes_every_reason_in_frames() {
    let mut met = Met::new();
    for index in 0..LOOKED_AT {
        let bytes = generator::frame(Kind::Drawn(Style::Tangled), 1, index).frame;
        for (reason, coordinates) in overlays(&bytes) {
            count(&mut met, reason, coordinates);
        }
    }
    assert_met(&met, &[7, 8, 9, 10]);
}

/// The reasons of a frame's overlay parts, each with the count of coordinates that it was told of.
fn overlays(frame: &[u8]) -> Vec<(Reason, usize)> {
    let Ok(Some(Ok(Answer::Listed { parts, .. }))) =
        oracle::answer(frame, usize::MAX).map(|bytes| Answer::decode(&bytes))
    else {
        return Vec::new();
    };
    let Frame { bounds, buffer, parts: lent, .. } = Frame::decode(frame).expect("it was answered");
    let overlay = |part: ListedPart| match part.listed {
        Listed::Overlay(reason) => Some((reason, looked_at(reason, bounds, buffer, &lent[usize::from(part.index)][0]))),
        _ => None,
    };
    parts.into_iter().filter_map(overlay).collect()
}
