//! The count of verdicts and the origins of a pass: on rings worked by hand, by document 02's sentence, and as mistaken readings have
//! it; and that the generator meets what is easily miscounted.

use std::collections::BTreeMap;

use compare::passes::{pass, worked_call, WORKED};
use formats::calls::MOST_COORDINATES;
use formats::origins::line_of;
use formats::passes::{Edge, PassAfter, PassCall};
use formats::room::most_passed;
use formats::{flat, pairs, same_numbers, Coord};
use generator::Style;
use reading::{Mistake, Place, Reading};

#[test]
fn worked_rings_have_their_counts() {
    for (name, ring, verdicts) in WORKED {
        for edge in Edge::ALL {
            let call = worked_call(ring, edge, 0);
            let oracle = call.after(oracle::pass(&call).as_ref());
            assert_eq!(oracle.verdicts, Some(verdicts), "the Rust, {name}, {edge:?}");
            assert_eq!(oracle.difference(&pass(&Reading::RIGHT, &call)), None, "the reading, {name}, {edge:?}");
        }
    }
}

/// A triangle across the line, open: in, out, in. Its vertices come from 100, 101 and 102.
#[test]
fn a_kept_vertex_keeps_its_origin_and_a_crossing_has_the_line() {
    for (edge, line, out) in [
        (Edge::Left, 65_532, (-5., 5.)),
        (Edge::Right, 65_533, (15., 5.)),
        (Edge::Bottom, 65_534, (5., -5.)),
        (Edge::Top, 65_535, (5., 15.)),
    ] {
        let call = worked_call(&[(4., 4.), out, (6., 6.)], edge, 0);
        let mut expected = vec![100, line, line, 102];
        expected.resize(call.out_origins.len(), 7);
        for after in [call.after(oracle::pass(&call).as_ref()), pass(&Reading::RIGHT, &call)] {
            assert_eq!((after.answer, after.out_origins.as_slice()), (4, &expected[..]), "{edge:?}");
        }
    }
}

/// One more than the vertices left after the leaving off, none if none are left.
#[test]
fn counts_are_those_of_the_sentence() {
    for call in specimens(1_000) {
        let ring = pairs(&call.ring);
        let left_off = usize::from(ring.len() >= 2 && ring.first() == ring.last());
        let left = ring.len() - left_off;
        let verdicts = if left == 0 { 0 } else { left + 1 };
        if let Some(passed) = oracle::pass(&call) {
            assert_eq!(passed.verdicts, verdicts, "{call}");
        }
    }
}

/// A triangle that goes out of the line and comes in again, closed; and no vertex.
#[test]
fn mistaken_counts_are_those_that_the_mistakes_say() {
    let closed = worked_call(&[(-5.0, 5.0), (5.0, 4.0), (5.0, 6.0), (-5.0, 5.0)], Edge::Left, 0);
    let none = worked_call(&[], Edge::Left, 0);
    for (mistake, verdicts, verdicts_on_none) in [
        (Mistake::FirstVerdictUncounted, 3, 0),
        (Mistake::CountsOneForNone, 4, 1),
        (Mistake::JudgesStartsAnew, 6, 0),
        (Mistake::JudgesAgainAtCrossing, 6, 0),
        (Mistake::JudgesVertexLeftOff, 5, 0),
    ] {
        let counted = |call| pass(&Reading::with(mistake), call).verdicts;
        assert_eq!([&closed, &none].map(counted), [Some(verdicts), Some(verdicts_on_none)], "{mistake:?}");
    }
}

#[test]
fn mistaken_counts_change_nothing_else() {
    let of_passes_alone: Vec<Mistake> =
        Mistake::ALL.iter().copied().filter(|mistake| mistake.places() == [Place::Passes]).collect();
    assert_eq!(of_passes_alone.len(), 5);
    for call in specimens(500) {
        let right = pass(&Reading::RIGHT, &call);
        for &mistake in &of_passes_alone {
            let mistaken = PassAfter { verdicts: right.verdicts, ..pass(&Reading::with(mistake), &call) };
            assert_eq!(mistaken.difference(&right), None, "{mistake:?}, {call}");
        }
    }
}

#[test]
fn the_generator_meets_every_shape_at_every_edge() {
    let mut met = BTreeMap::new();
    for call in specimens(2_000) {
        for (shape, has) in shapes(&call) {
            *met.entry((call.edge, shape)).or_insert(false) |= has;
        }
    }
    assert_eq!(met.len(), 4 * 20);
    let missed: Vec<_> = met.iter().filter(|(_, is_met)| !**is_met).collect();
    assert_eq!(missed, []);
}

/// `count` passes of each style.
fn specimens(count: u64) -> impl Iterator<Item = PassCall> {
    Style::ALL.into_iter().flat_map(move |style| (0..count).map(move |index| generator::pass(style, 1, index)))
}

/// Whether a pass has each of these.
fn shapes(call: &PassCall) -> [(&'static str, bool); 20] {
    let ring = pairs(&call.ring);
    let (n, asked) = (ring.len(), 2 * most_passed(ring.len()));
    let ends_equal = ring.first() == ring.last();
    let ends_look_equal = n > 0 && same_numbers(&flat(&ring[..1]), &flat(&ring[n - 1..]));
    let has_nan = |&(x, y): &Coord| x.is_nan() || y.is_nan();
    [
        ("no vertex", n == 0),
        ("one vertex", n == 1),
        ("a vertex twice", n == 2 && ends_equal && ends_look_equal),
        ("a vertex twice, its zeros of either sign", n == 2 && ends_equal && !ends_look_equal),
        ("a vertex of NaN twice", n == 2 && !ends_equal && ends_look_equal),
        ("one vertex with a NaN", n == 1 && ring.iter().all(has_nan)),
        ("a NaN among numbers", n > 2 && ring.iter().any(has_nan) && !ring.iter().all(has_nan)),
        ("closed", n > 2 && ends_equal),
        ("open", n > 2 && !ends_equal),
        ("a vertex on the line between in and out", ring.windows(3).any(|vertices| is_on_between(call, vertices))),
        ("more vertices than a call may have", n > MOST_COORDINATES),
        ("an odd number", call.ring.len() % 2 == 1),
        ("room to the number", call.out.len() == asked),
        ("one number too little room", call.out.len() + 1 == asked),
        ("more room", call.out.len() > asked),
        ("origins to the vertex", call.out_origins.len() == asked / 2),
        ("room for one origin too few", call.out.len() >= asked && call.out_origins.len() + 1 == asked / 2),
        ("more room for origins", call.out_origins.len() > asked / 2),
        ("one vertex without an origin", call.origins.len() + 1 == n),
        ("vertices of lines", call.origins.iter().any(|&origin| line_of(origin).is_some())),
    ]
}

/// Whether the middle one of three vertices is on the line, with one strictly in and one out beside it.
fn is_on_between(call: &PassCall, vertices: &[Coord]) -> bool {
    let [west, south, east, north] = call.bounds;
    let inwards = |&(x, y): &Coord| match call.edge {
        Edge::Left => x - west,
        Edge::Right => east - x,
        Edge::Bottom => y - south,
        Edge::Top => north - y,
    };
    let [before, at, behind] = [0, 1, 2].map(|k| inwards(&vertices[k]));
    at == 0.0 && before * behind < 0.0
}
