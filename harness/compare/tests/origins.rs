//! Document 02's point 12: rings and frames worked by hand, with the origins that the oracle's walk and the second reading tell and what
//! mistaken readings tell; and that the generator makes what origins are easily wrong about.

use std::collections::{BTreeMap, BTreeSet};
use std::slice::from_ref;

use compare::calls::{ring_call, slice_call};
use compare::worked::{
    self, overflowing_cut, ring_of_each_origin, Beside, ACROSS_EAST, BOTTOM, BOUNDS, INSIDE, LEFT, OVERFLOWING, RIGHT,
    TOP,
};
use formats::answer::{Answer, Listed, ListedPart};
use formats::calls::{RingCall, SliceAnswer, SliceCall};
use formats::frame::{Frame, MULTIPOLYGON, POLYGON};
use formats::origins::{line_of, line_origin, numbers_of, origins_of, CutRing};
use formats::passes::Edge;
use formats::{pairs, same_numbers, Coord, Part, Ring};
use generator::{Kind, Style};
use reading::{Mistake, Reading};

/// The origins that a ring call writes, by a reading.
fn origins(reading: &Reading, ring: &[Coord]) -> Vec<u16> {
    let after = ring_call(reading, &worked::ring_call(ring, Beside::default()));
    after.out_origins[..after.answer as usize].to_vec()
}

#[test]
fn worked_rings_have_their_origins() {
    let mut met = BTreeSet::new();
    for (ring, expected) in ring_of_each_origin() {
        let call = worked::ring_call(&ring, Beside::default());
        assert_eq!(oracle::ring_call(&call).unwrap().origins, expected, "the Rust, walked, {ring:?}");
        assert_eq!(origins(&Reading::RIGHT, &ring), expected, "the reading, {ring:?}");
        met.extend(expected.into_iter().filter_map(line_of));
    }
    assert_eq!(met, Edge::ALL.into());
}

fn frame(kind: u8, flags: u8, parts: &[Part]) -> Vec<u8> {
    Frame { kind, flags, bounds: BOUNDS, buffer: 0.0, parts: parts.to_vec() }.encode()
}

/// The parts that are listed as cut, as oracle and reading have them.
fn cut_parts(frame: &[u8]) -> Vec<Vec<CutRing>> {
    let answer = oracle::answer(frame, usize::MAX);
    assert_eq!(Reading::RIGHT.answer(frame, usize::MAX), answer);
    let Some(Ok(Answer::Listed { parts, .. })) = Answer::decode(&answer.expect("it is not refused")) else {
        panic!("nothing is listed");
    };
    let cut = |part: ListedPart| match part.listed {
        Listed::Cut(rings) => Some(rings),
        _ => None,
    };
    parts.into_iter().filter_map(cut).collect()
}

#[test]
fn a_cut_that_begins_with_a_nan_has_its_firsts_origin_three_times() {
    let expected = overflowing_cut();
    for kind in [POLYGON, MULTIPOLYGON] {
        let [part] = &cut_parts(&frame(kind, 3, &[vec![OVERFLOWING.to_vec()]]))[..] else { panic!("one part is cut") };
        assert!(same_numbers(&numbers_of(part), &numbers_of(from_ref(&expected))), "{part:?}");
        assert_eq!(origins_of(part), expected.origins);
    }
    let call = worked::slice_call(3, &[OVERFLOWING.to_vec()], Beside::default());
    for after in [call.after(&oracle::slice_call(&call)), slice_call(&Reading::RIGHT, &call)] {
        assert_eq!(after.answer, 4 + 65_536);
        assert_eq!(after.out_origins[..7], expected.origins);
        assert!(after.out_origins[7..].iter().all(|&origin| origin == 0));
    }
    // A ring call closes once.
    assert_eq!(origins(&Reading::RIGHT, &OVERFLOWING), expected.origins[..6]);
}

/// Each ring has positions of its own, in every part, and a hole that is left out leaves none.
#[test]
fn positions_are_those_of_each_ring() {
    let hole: Ring = vec![(6., 6.), (12., 6.), (12., 7.), (6., 7.)];
    let outside: Ring = vec![(20., 6.), (22., 6.), (22., 7.)];
    let part = vec![ACROSS_EAST.to_vec(), outside, hole];
    let expected = [[0, RIGHT, RIGHT, 3, 0], [0, RIGHT, RIGHT, 3, 0]].concat();
    let parts = cut_parts(&frame(MULTIPOLYGON, 3, &[part.clone(), part.clone()]));
    assert_eq!(parts.iter().map(|part| origins_of(part)).collect::<Vec<_>>(), [expected.clone(), expected.clone()]);
    let call = worked::slice_call(3, &part, Beside::default());
    for after in [call.after(&oracle::slice_call(&call)), slice_call(&Reading::RIGHT, &call)] {
        assert_eq!((after.answer, &after.out_origins[..10]), (4 + 2 * 65_536, &expected[..]));
    }
}

/// A ring that is cut to itself: 0 is an origin like any other, and behind the answer zeros tell nothing.
#[test]
fn zero_is_an_origin() {
    let ring: Ring = INSIDE[..3].to_vec();
    let call = worked::ring_call(&ring, Beside::default());
    let after = call.after(&oracle::ring_call(&call));
    assert_eq!((after.answer, &after.out_origins[..5]), (4, &[0, 1, 2, 0, 0][..]));
}

/// Unchanged and overlay write no coordinate, and so no origin.
#[test]
fn other_answers_have_no_origins() {
    for (flags, ring) in [(0, INSIDE), (0, ACROSS_EAST)] {
        let call = worked::slice_call(flags, &[ring.to_vec()], Beside::default());
        let oracle = oracle::slice_call(&call);
        assert!(matches!(oracle, Ok(SliceAnswer::Unchanged | SliceAnswer::Overlay(_))));
        assert!(call.after(&oracle).out_origins.iter().all(|&origin| origin == 0));
    }
}

#[test]
fn mistaken_readings_tell_what_the_mistakes_say() {
    use Mistake::*;

    let touching: &[Coord] = &[(10., 2.), (20., 2.), (20., 8.), (10., 8.)];
    let corner: &[Coord] = &[(-5., -5.), (5., -5.), (5., 5.), (-5., 5.)];
    let left_off: &[Coord] = &[(15., 5.), (5., 5.), (5., 8.), (10., 5.)];
    let zeros: &[Coord] = &[(0., 0.), (5., 0.), (5., 5.), (-0., 0.)];
    let mistaken: [(&[Coord], Mistake, &[u16]); 18] = [
        (touching, OriginByComparing, &[0, 0, 3, 3, 0]),
        (touching, OnLineHasLine, &[RIGHT, RIGHT, RIGHT, RIGHT, RIGHT]),
        (touching, CrossingHasEndsOrigin, &[0, 1, 3, 3, 0]),
        (touching, CrossingHasStartsOrigin, &[0, 0, 2, 3, 0]),
        (touching, ClosingHasLastsOrigin, &[0, RIGHT, RIGHT, 3, 3]),
        (touching, SwapsLeftAndRight, &[0, LEFT, LEFT, 3, 0]),
        (touching, OriginsFromOne, &[1, RIGHT, RIGHT, 4, 1]),
        (touching, ClosingHasLine, &[0, RIGHT, RIGHT, 3, TOP]),
        (&ACROSS_EAST, ClosingHasLentPosition, &[0, RIGHT, RIGHT, 3, 4]),
        (&ACROSS_EAST, LeftOffGivesOrigin, &[4, RIGHT, RIGHT, 3, 4]),
        (corner, SwapsBottomAndTop, &[TOP, TOP, 2, LEFT, TOP]),
        (corner, CornerHasEarlierLine, &[LEFT, BOTTOM, 2, LEFT, LEFT]),
        (corner, KeptHasLaterLine, &[TOP, TOP, 2, TOP, TOP]),
        (corner, RenumbersInEachPass, &[BOTTOM, BOTTOM, 2, LEFT, BOTTOM]),
        (left_off, LeftOffGivesOrigin, &[3, RIGHT, 1, 2, 3]),
        (left_off, RenumbersInEachPass, &[RIGHT, RIGHT, 2, 3, RIGHT]),
        (zeros, ClosingHasLentPosition, &[0, 1, 2, 3]),
        (zeros, OriginByComparing, &[0, 1, 2, 0]),
    ];
    for (ring, mistake, expected) in mistaken {
        assert_eq!(origins(&Reading::with(mistake), ring), expected, "{mistake:?}, {ring:?}");
    }
    let overflowing = worked::slice_call(3, &[OVERFLOWING.to_vec()], Beside::default());
    let last = |mistake: Mistake| slice_call(&Reading::with(mistake), &overflowing).out_origins[6];
    assert_eq!([SecondClosingHasNone, SecondClosingHasLine].map(last), [0, TOP]);
    let with_hole = worked::slice_call(3, &[ACROSS_EAST.to_vec(), ACROSS_EAST.to_vec()], Beside::default());
    let in_part = slice_call(&Reading::with(PositionsInPart), &with_hole).out_origins;
    assert_eq!(in_part[..10], [0, RIGHT, RIGHT, 3, 0, 5, RIGHT, RIGHT, 8, 5]);
}

/// Room by 16 bytes is asked for where it is not enough for the answer; the origins stand elsewhere, or the other way around.
#[test]
fn mistaken_frames_are_those_that_the_mistakes_say() {
    let frame = frame(POLYGON, 3, &[vec![ACROSS_EAST.to_vec()]]);
    let mistaken = |mistake: Mistake, room: usize| Reading::with(mistake).answer(&frame, room);
    // B(5) is 24.
    assert_eq!(Reading::RIGHT.answer(&frame, 13 + 18 * 24 - 1), Err(22));
    assert_eq!(mistaken(Mistake::RoomOf16, 13 + 16 * 24), Reading::RIGHT.answer(&frame, 13 + 18 * 24));
    assert_eq!(mistaken(Mistake::RoomOf16, 13 + 16 * 24 - 1), Err(22));
    assert_eq!(mistaken(Mistake::LentCoordinatesOf18, usize::MAX), Err(15));
    let right = Reading::RIGHT.answer(&frame, usize::MAX).unwrap();
    let behind = mistaken(Mistake::OriginsBehindRing, usize::MAX).unwrap();
    assert_eq!(behind.len(), right.len());
    let origins = [0, RIGHT, RIGHT, 3, 0].map(u16::to_le_bytes).concat();
    assert_eq!(behind[right.len() - 10..], origins);
    let big_endian = mistaken(Mistake::OriginsBigEndian, usize::MAX).unwrap();
    assert_eq!((&right[47..49], &big_endian[47..49]), (&[0xfd, 0xff][..], &[0xff, 0xfd][..]));
}

/// Specimens that are looked at, and how often each shape has to be met.
const LOOKED_AT: u64 = 4_000;
const ENOUGH: u32 = 20;

#[test]
fn the_generator_makes_every_shape_of_a_cut() {
    let mut of_rings = Met::default();
    let mut of_polygons = Met::default();
    for style in Style::ALL {
        for index in 0..LOOKED_AT {
            of_rings.count_ring_call(&generator::ring_call(style, 1, index));
            of_polygons.count_slice_call(&generator::slice_call(style, 1, index));
        }
    }
    of_rings.assert_met(&SHAPES);
    of_polygons.assert_met(&SHAPES);
    of_polygons.assert_met(&[
        "a hole behind one that is left out",
        "two closing vertices",
        "two closing vertices of a hole",
    ]);
}

#[test]
fn the_generator_makes_every_shape_of_a_cut_in_frames() {
    let mut met = Met::default();
    for kind in [Kind::Drawn(Style::Corners), Kind::Drawn(Style::Grid), Kind::Drawn(Style::Huge), Kind::Parts] {
        for index in 0..3 * LOOKED_AT {
            met.count_frame(&generator::frame(kind, 1, index).frame);
        }
    }
    met.assert_met(&SHAPES);
    met.assert_met(&["a hole behind one that is left out", "two closing vertices", "two closing vertices of a hole"]);
}

/// What a ring with origins may have.
const SHAPES: [&str; 12] = [
    "a vertex of Left",
    "a vertex of Right",
    "a vertex of Bottom",
    "a vertex of Top",
    "lines alone",
    "positions alone",
    "a crossing that equals a vertex lent",
    "a vertex of a line on another line",
    "a kept vertex on a line",
    "the first is of a line",
    "the last is left off by a later pass",
    "the last equals the first and keeps its own",
];

/// How often each shape was met.
#[derive(Default)]
struct Met(BTreeMap<&'static str, u32>);

impl Met {
    fn count_ring_call(&mut self, call: &RingCall) {
        if let Ok(cut) = oracle::ring_call(call) {
            self.count_ring(&call.bounds, &pairs(&call.ring), &cut);
        }
    }

    fn count_slice_call(&mut self, call: &SliceCall) {
        if let Ok(SliceAnswer::Cut(cut)) = oracle::slice_call(call) {
            self.count_part(&call.bounds, call.buffer, &call.rings().expect("the lengths fit"), &cut);
        }
    }

    fn count_frame(&mut self, bytes: &[u8]) {
        let answer = oracle::answer(bytes, usize::MAX).map(|answer| Answer::decode(&answer));
        let Ok(Some(Ok(Answer::Listed { parts, .. }))) = answer else {
            return;
        };
        let frame = Frame::decode(bytes).expect("it was answered");
        for ListedPart { index, listed } in parts {
            if let Listed::Cut(cut) = listed {
                self.count_part(&frame.bounds, frame.buffer, &frame.parts[usize::from(index)], &cut);
            }
        }
    }

    fn count_part(&mut self, bounds: &[f64; 4], buffer: f64, part: &Part, cut: &[CutRing]) {
        let bounds = compare::origins::buffered(bounds, buffer);
        let closes_twice = |cut: &CutRing| cut.ring[0].0.is_nan() || cut.ring[0].1.is_nan();
        self.count("a hole behind one that is left out", cut.len() > 1 && cut.len() < part.len());
        self.count("two closing vertices", closes_twice(&cut[0]));
        self.count("two closing vertices of a hole", cut[1..].iter().any(closes_twice));
        self.count_ring(&bounds, &part[0], &cut[0]);
        if cut.len() == part.len() {
            part[1..].iter().zip(&cut[1..]).for_each(|(ring, cut)| self.count_ring(&bounds, ring, cut));
        }
    }

    fn count_ring(&mut self, bounds: &[f64; 4], ring: &Ring, cut: &CutRing) {
        let (Some(&first), Some(&last)) = (cut.origins.first(), cut.origins.last()) else {
            return;
        };
        let &[west, south, east, north] = bounds;
        let is_on = |(x, y): Coord, edge: Edge| match edge {
            Edge::Left => x == west,
            Edge::Right => x == east,
            Edge::Bottom => y == south,
            Edge::Top => y == north,
        };
        let lines = || cut.vertices().filter(|&(_, origin)| line_of(origin).is_some());
        let positions = || cut.vertices().filter(|&(_, origin)| line_of(origin).is_none());
        for (name, edge) in SHAPES.into_iter().zip(Edge::ALL) {
            self.count(name, cut.origins.contains(&line_origin(edge)));
        }
        self.count("lines alone", positions().count() == 0);
        self.count("positions alone", lines().count() == 0);
        self.count("a crossing that equals a vertex lent", lines().any(|(vertex, _)| ring.contains(&vertex)));
        let on_another = |edge: Edge, vertex: Coord| Edge::ALL.into_iter().any(|e| e != edge && is_on(vertex, e));
        let is_corner = |(vertex, origin)| line_of(origin).is_some_and(|edge| on_another(edge, vertex));
        self.count("a vertex of a line on another line", lines().any(is_corner));
        let is_on_any = |(vertex, _)| Edge::ALL.into_iter().any(|edge| is_on(vertex, edge));
        self.count("a kept vertex on a line", positions().any(is_on_any));
        self.count("the first is of a line", line_of(first).is_some());
        let is_inside = |&(x, y): &Coord| x >= west && x <= east && y >= south && y <= north;
        let is_lent_open = ring.first() != ring.last();
        let last_stays = ring.last().is_none_or(|last| !is_inside(last))
            || positions().any(|(_, origin)| usize::from(origin) + 1 == ring.len());
        self.count("the last is left off by a later pass", is_lent_open && !last_stays);
        self.count("the last equals the first and keeps its own", first != last);
    }

    fn count(&mut self, shape: &'static str, has: bool) {
        *self.0.entry(shape).or_default() += u32::from(has);
    }

    fn assert_met(&self, shapes: &[&'static str]) {
        let missed: Vec<_> = shapes.iter().filter(|shape| self.0[*shape] < ENOUGH).map(|s| (s, self.0[s])).collect();
        assert!(missed.is_empty(), "{missed:?} of {:?}", self.0);
    }
}
