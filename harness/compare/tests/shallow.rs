//! Document 02's point 5: rings that tell its readings apart, by the Rust with the exact stand-in of `line_intersection` and by the
//! second reading, rightly and mistaken; and that the generator makes rings and pairs on which the rule decides.

use std::collections::BTreeMap;

use compare::calls::slice_call;
use compare::shallow::{shallow_before_crossing, shallow_by_number, shallow_when_cut, SHALLOW, WIDE};
use compare::worked::{self, Beside};
use formats::answer::{Answer, Listed, ListedPart};
use formats::calls::{SliceAnswer, SliceCall};
use formats::frame::{Frame, POLYGON};
use formats::reason::Reason;
use formats::{closed_length, Bounds, Coord};
use generator::{Kind, PairKind, Style};
use reading::{Mistake, Reading, Vertex};

fn call(flags: u8, bounds: Bounds, ring: &[Coord]) -> SliceCall {
    SliceCall { bounds, ..worked::slice_call(flags, &[ring.to_vec()], Beside::default()) }
}

/// An overlay for the reason, or unchanged for none.
fn answer(reason: Option<Reason>) -> SliceAnswer {
    reason.map_or(SliceAnswer::Unchanged, SliceAnswer::Overlay)
}

/// What both sides answer to a slice call and a frame of the ring alone in wide bounds, where edges are looked at and where not.
fn assert_answered(ring: &[Coord], reason: Option<Reason>) {
    for flags in 0..4 {
        let reason = reason.filter(|_| flags & 1 == 0);
        let call = call(flags, WIDE, ring);
        let expected = call.after(&Ok(answer(reason)));
        assert_eq!(call.after(&oracle::slice_call(&call)).difference(&expected), None, "the Rust, {call}");
        assert_eq!(slice_call(&Reading::RIGHT, &call).difference(&expected), None, "the reading, {call}");

        let frame =
            Frame { kind: POLYGON, flags, bounds: WIDE, buffer: 0.0, parts: vec![vec![ring.to_vec()]] }.encode();
        let listed = |reason| vec![ListedPart { index: 0, listed: Listed::Overlay(reason) }];
        let expected = match reason {
            None => Answer::Unchanged.encode(),
            Some(reason) => Answer::Listed { guard_count: 0, parts: listed(reason) }.encode(),
        };
        assert_eq!(oracle::answer(&frame, usize::MAX).as_ref(), Ok(&expected), "the Rust, flags {flags}, {ring:?}");
        assert_eq!(Reading::RIGHT.answer(&frame, usize::MAX), Ok(expected), "the reading, flags {flags}, {ring:?}");
    }
}

/// The reason that a mistaken reading gives, without flags; none for unchanged.
fn told(mistake: Mistake, ring: &[Coord]) -> Option<Reason> {
    let code = slice_call(&Reading::with(mistake), &call(0, WIDE, ring)).answer;
    (code & 0xff == 5).then(|| Reason::of_code(code))
}

/// As rings of four edges, and with arcs of up to 64 edges, which are swept from 33 on.
#[test]
fn edges_cross_only_where_they_share_a_point() {
    for shallow in SHALLOW {
        for vertices in [0, 1, 5, 14, 15, 30] {
            let ring = shallow.ring(vertices);
            let crossing = Some(Reason { number: 8, first: 0, second: 2 + vertices as u32 });
            assert_eq!(told(Mistake::RoundedTestAlone, &ring), crossing, "{}, {vertices} vertices", shallow.name);
            assert_answered(&ring, shallow.reason(vertices));
        }
    }
}

#[test]
fn mistaken_readings_of_the_four_rings() {
    let crossing = |mistake| SHALLOW.each_ref().map(|shallow| told(mistake, &shallow.ring(1)).is_some());
    assert_eq!(crossing(Mistake::ProperCrossingsOnly), [false, false, false, false]);
    assert_eq!(crossing(Mistake::ParallelShareNone), [false, true, false, false]);
    assert_eq!(crossing(Mistake::EndOnLineIsShared), [false, true, true, true]);
    assert_eq!(crossing(Mistake::RoundedTestAlone), [true; 4]);
    // Edges that follow each other share their vertex.
    assert_eq!(crossing(Mistake::ExactTestAlone), [true; 4]);
}

#[test]
fn one_number_off_the_grid_keeps_the_rounded_test() {
    let crossing = Reason { number: 8, first: 0, second: 2 };
    let mut met = BTreeMap::new();
    for (ring, on_grid) in shallow_by_number() {
        assert_answered(&ring, (!on_grid).then_some(crossing));
        assert_eq!(told(Mistake::RoundedTestAlone, &ring), Some(crossing), "{ring:?}");
        let mistakes = [Mistake::GridWithoutZero, Mistake::GridWithout256, Mistake::CoarserGrid, Mistake::FinerGrid];
        for mistake in mistakes.into_iter().filter(|&mistake| told(mistake, &ring).is_none() != on_grid) {
            *met.entry(format!("{mistake:?}")).or_insert(0) += 1;
        }
        assert_eq!(told(Mistake::ExactOffGrid, &ring), None, "{ring:?}");
    }
    let told = [("CoarserGrid", 6), ("FinerGrid", 6), ("GridWithout256", 2), ("GridWithoutZero", 6)];
    assert_eq!(met, told.map(|(mistake, times)| (mistake.to_string(), times)).into());
}

/// A number off the grid elsewhere in the ring changes nothing.
#[test]
fn the_grid_is_asked_of_the_two_edges() {
    for shallow in SHALLOW.iter().filter(|shallow| !shallow.share_a_point) {
        let mut ring = shallow.ring(14);
        let is_small = |(x, _): &&mut Coord| x.abs() < 15.0;
        let (x, _) = ring[18..].iter_mut().find(is_small).expect("the second arc passes x 0");
        *x += 0.01;
        assert!(!Reading::RIGHT.is_on_grid(*x));
        assert_answered(&ring, None);
        assert_eq!(told(Mistake::GridOfWholeRing, &ring), Some(Reason { number: 8, first: 0, second: 16 }));
    }
}

#[test]
fn a_later_crossing_is_told_behind_a_shallow_pair() {
    let (reason, ring) = shallow_before_crossing();
    assert_answered(&ring, Some(reason));
    let rounded = Some(Reason { number: 8, first: 0, second: 7 });
    assert_eq!(told(Mistake::RoundedTestAlone, &ring), rounded);
    assert_eq!(told(Mistake::RoundedPairTold, &ring), rounded);
}

/// The check of the cut asks for a shared point as well: by the rounded test alone it had reason 10.
#[test]
fn a_cut_with_a_shallow_pair_is_cut() {
    let (bounds, ring) = shallow_when_cut();
    for flags in 0..4 {
        let call = call(flags, bounds, &ring);
        let oracle = oracle::slice_call(&call);
        let Ok(SliceAnswer::Cut(rings)) = &oracle else { panic!("{oracle:?}") };
        assert_eq!(rings[0].ring.len(), 8);
        assert_eq!(slice_call(&Reading::RIGHT, &call).difference(&call.after(&oracle)), None);
        let code = |mistake| slice_call(&Reading::with(mistake), &call).answer;
        let reason = SliceAnswer::Overlay(Reason { number: 10, first: 2, second: 5 }).code();
        let rounded = if flags & 1 == 0 { reason } else { 4 + 65_536 };
        assert_eq!([code(Mistake::RoundedTestAlone), code(Mistake::ExactOfInputOnly)], [rounded; 2], "flags {flags}");
        assert_eq!(code(Mistake::ExactOfCutOnly), 4 + 65_536, "flags {flags}");
    }
}

const LOOKED_AT: u64 = 10_000;

/// How often the rule decides otherwise than the rounded test: by what is looked at, and what each says.
type Decided = BTreeMap<(&'static str, &'static str), u32>;

/// An answer as the rule gives it, where that of the rounded test is an overlay for a crossing.
fn decision(rounded: i64, answer: i64) -> &'static str {
    match (answer & 0xff, Reason::of_code(rounded).number) {
        (5, number) if Reason::of_code(answer).number == number => "another pair",
        (5, 8) => "no crossing, but another reason",
        (_, 8) => "no crossing",
        (5, _) => "no crossing of the cut, but another reason",
        (_, _) => "no crossing of the cut",
    }
}

/// More than a fifth of the slice calls that are not refused hang on the rule, scanned and swept, in the input and in the cut.
#[test]
fn the_generator_makes_slice_calls_on_which_the_rule_decides() {
    let (mut decided, mut answered) = (Decided::new(), 0);
    for call in (0..LOOKED_AT).map(|index| generator::slice_call(Style::Shallow, 1, index)) {
        let (right, rounded) = (slice_call(&Reading::RIGHT, &call).answer, slice_call(&Reading::ROUNDED, &call).answer);
        answered += u32::from(right >= 0);
        if right != rounded {
            let edges = closed_length(&call.rings().expect("it is answered")[0]) - 1;
            let looked_at = if edges > 32 { "swept" } else { "scanned" };
            *decided.entry((looked_at, decision(rounded, right))).or_default() += 1;
        }
    }
    let decisive: u32 = decided.values().sum();
    assert!(5 * decisive > answered, "{decisive} of {answered}: {decided:?}");
    for looked_at in ["scanned", "swept"] {
        for decision in ["no crossing", "no crossing, but another reason", "another pair"] {
            assert!(decided.get(&(looked_at, decision)).is_some_and(|&times| times >= 5), "{decision}: {decided:?}");
        }
    }
    let of_cut = decided.iter().filter(|((_, decision), _)| decision.contains("of the cut")).map(|(_, times)| times);
    assert!(of_cut.sum::<u32>() >= 10, "{decided:?}");
}

#[test]
fn the_generator_makes_frames_on_which_the_rule_decides() {
    let decides = |index: &u64| {
        let frame = generator::frame(Kind::Drawn(Style::Shallow), 1, *index).frame;
        Reading::RIGHT.answer(&frame, usize::MAX) != Reading::ROUNDED.answer(&frame, usize::MAX)
    };
    let decided = (0..LOOKED_AT).filter(decides).count();
    assert!(decided > 1_500, "{decided} of {LOOKED_AT}");
}

/// What a pair is: whether its edges share a point, and whether they cross by the rounded test.
fn sort_of(pair: generator::Pair) -> (Option<bool>, bool) {
    let [a, b, c, d] = pair.map(|(x, y)| Vertex { x, y });
    (Reading::RIGHT.shares_point([a, b], [c, d]), Reading::ROUNDED.edges_cross([a, b], [c, d]))
}

/// The sorts that each kind of pair has to have.
#[test]
fn the_generator_makes_pairs_of_every_sort() {
    let (no_point, shallow) = ((Some(false), false), (Some(false), true));
    let (shared, crosses) = ((Some(true), false), (Some(true), true));
    let (off_grid, crosses_off_grid) = ((None, false), (None, true));
    for kind in PairKind::ALL {
        let mut met = BTreeMap::new();
        for index in 0..50_000 {
            *met.entry(sort_of(generator::pair(kind, 1, index))).or_insert(0) += 1;
        }
        let sorts = match kind {
            PairKind::NearlyCollinear | PairKind::AroundZero | PairKind::EndOnLine => {
                vec![no_point, shallow, shared, crosses]
            }
            PairKind::Collinear | PairKind::Short | PairKind::Finest | PairKind::NearlyParallel => {
                vec![no_point, shared, crosses]
            }
            PairKind::Touching => vec![shared, crosses],
            PairKind::Scattered => vec![no_point, crosses],
            PairKind::Decimals | PairKind::LookedFor | PairKind::Largest | PairKind::Zeros => {
                vec![no_point, shallow, shared, crosses, off_grid, crosses_off_grid]
            }
            PairKind::OneOffGrid | PairKind::OffGrid | PairKind::NotFinite | PairKind::Bits => {
                vec![off_grid, crosses_off_grid]
            }
        };
        for sort in sorts {
            assert!(met.get(&sort).is_some_and(|&times| times >= 10), "{kind:?}: {sort:?} of {met:?}");
        }
    }
}
