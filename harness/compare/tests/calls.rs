//! Ring calls and slice calls: lent slices at the limits of 21 and 22, what mistaken readings leave in the outputs, and that the
//! generator meets what an output with zeros past the answer is easily wrong about.

use std::collections::BTreeMap;

use compare::calls::{ring_call, ring_label, slice_call, slice_label};
use compare::passes::worked_call;
use compare::worked::{self, unwritten, unwritten_origin, Beside, ACROSS_EAST, RIGHT};
use formats::calls::{RingCall, SliceAnswer, SliceCall};
use formats::passes::{Edge, PassCall};
use formats::room::most_cut;
use formats::{closed_length, flat, pairs, Bounds, Ring};
use generator::Style;
use reading::{Mistake, Reading};

/// The Rust's answer in a word; the second reading gives the same and leaves the same.
fn ring_answer(call: &RingCall) -> &'static str {
    let oracle = oracle::ring_call(call);
    assert_eq!(call.after(&oracle).difference(&ring_call(&Reading::RIGHT, call)), None, "{call}");
    ring_label(&oracle)
}

fn slice_answer(call: &SliceCall) -> &'static str {
    let oracle = oracle::slice_call(call);
    assert_eq!(call.after(&oracle).difference(&slice_call(&Reading::RIGHT, call)), None, "{call}");
    slice_label(&oracle)
}

/// A ring call with slices of these lengths: scratch, origin scratch, output, origins.
fn ring_call_with(ring: Vec<f64>, [scratch, origin_scratch, out, out_origins]: [usize; 4]) -> RingCall {
    RingCall {
        ring,
        bounds: worked::BOUNDS,
        scratch: vec![7.0; scratch],
        origin_scratch: vec![7; origin_scratch],
        out: vec![7.0; out],
        out_origins: vec![7; out_origins],
    }
}

/// B(1) to B(5), worked by hand: 21 asks for twice as many numbers of the scratch slice and as many origins of theirs, 22 of the
/// output.
#[test]
fn ring_calls_at_the_limits_of_21_and_22() {
    for (n, b) in [(1, 3), (2, 11), (3, 15), (4, 21), (5, 24)] {
        let lent = |lengths: [usize; 4]| ring_answer(&ring_call_with(flat(&ACROSS_EAST[..n]), lengths));
        let answer = if n < 3 { "empty" } else { "ring" };
        let exact = [2 * b, b, 2 * b, b];
        for longer in [0, 1, 50] {
            for slice in 0..4 {
                let one_longer = |k: usize| exact[k] + if k == slice { longer } else { 0 };
                assert_eq!(lent([0, 1, 2, 3].map(one_longer)), answer, "{n} vertices, slice {slice}");
                let one_short = |k: usize| if k == slice { exact[k] - 1 } else { exact[k] + longer };
                let refusal = if slice < 2 { "21" } else { "22" };
                assert_eq!(lent([0, 1, 2, 3].map(one_short)), refusal, "{n} vertices, slice {slice}");
            }
        }
        // 21 comes before 22.
        for [scratch, out] in [[0, 2], [0, 3], [1, 2], [1, 3]] {
            let mut both_short = exact;
            both_short[scratch] -= 1;
            both_short[out] -= 1;
            assert_eq!(lent(both_short), "21", "{n} vertices");
        }
        assert_eq!(lent([0, b, 2 * b, b]), "21", "{n} vertices");
        assert_eq!(lent([2 * b, 0, 2 * b, b]), "21", "{n} vertices");
        assert_eq!(lent([2 * b, b, 0, b]), "22", "{n} vertices");
        assert_eq!(lent([2 * b, b, 2 * b, 0]), "22", "{n} vertices");
    }
    assert_eq!(ring_answer(&ring_call_with(vec![], [0; 4])), "empty");
    // 19 comes before 21 and 22.
    assert_eq!(ring_answer(&ring_call_with(vec![5.0; 3], [0; 4])), "19");
}

/// Closed, the rings have five and three coordinates: S is B(5), which is 24, and B(3) is 15.
#[test]
fn slice_calls_at_the_limits_of_21_and_22() {
    for rings in [[ACROSS_EAST.to_vec(), vec![(6., 6.), (7., 7.)]], [vec![(6., 6.), (7., 7.)], ACROSS_EAST.to_vec()]] {
        let with_origins = |origin_scratch: usize, out_origins: usize| {
            slice_answer(&SliceCall {
                origin_scratch: vec![7; origin_scratch],
                out_origins: vec![7; out_origins],
                ..worked::slice_call(3, &rings, Beside::default())
            })
        };
        let lent = |scratch: usize, order: usize, out: usize, out_lengths: usize| {
            slice_answer(&SliceCall {
                scratch: vec![7.0; scratch],
                order: vec![7; order],
                out: vec![7.0; out],
                out_lengths: vec![7; out_lengths],
                ..worked::slice_call(3, &rings, Beside::default())
            })
        };
        let answer = if rings[0].len() == 5 { "cut" } else { "overlay" };
        for longer in [0, 1, 50] {
            assert_eq!(lent(48 + longer, 24, 78, 2), answer);
            assert_eq!(lent(48, 24 + longer, 78, 2), answer);
            assert_eq!(lent(48, 24, 78 + longer, 2), answer);
            assert_eq!(lent(48, 24, 78, 2 + longer), answer);
            assert_eq!(lent(47, 24 + longer, 78 + longer, 2 + longer), "21");
            assert_eq!(lent(48 + longer, 23, 78 + longer, 2 + longer), "21");
            assert_eq!(lent(48 + longer, 24 + longer, 77, 2 + longer), "22");
            assert_eq!(lent(48 + longer, 24 + longer, 78 + longer, 1), "22");
            assert_eq!([with_origins(24 + longer, 39), with_origins(24, 39 + longer)], [answer; 2]);
            assert_eq!([with_origins(23, 39 + longer), with_origins(24 + longer, 38)], ["21", "22"]);
        }
        assert_eq!([with_origins(23, 38), with_origins(0, 39), with_origins(24, 0)], ["21", "21", "22"]);
        assert_eq!([lent(47, 24, 77, 1), lent(48, 23, 77, 1), lent(48, 24, 77, 1)], ["21", "21", "22"]);
        assert_eq!([lent(0, 24, 78, 2), lent(48, 0, 78, 2)], ["21", "21"]);
        assert_eq!([lent(48, 24, 0, 2), lent(48, 24, 78, 0)], ["22", "22"]);
    }
}

#[test]
fn worked_calls_have_their_answers() {
    for spare in [0, 1, 500] {
        for (count, ring) in worked::ring_of_each_answer() {
            let call = worked::ring_call(&ring, Beside::all(spare));
            assert_eq!(ring_answer(&call), if count == 0 { "empty" } else { "ring" }, "{call}");
            assert_eq!(ring_call(&Reading::RIGHT, &call).answer, count as i64, "{call}");
        }
        for (answer, flags, part) in worked::polygon_of_each_answer() {
            let call = worked::slice_call(flags, &part, Beside::all(spare));
            assert_eq!(slice_answer(&call), answer, "{call}");
        }
    }
    let lost: Vec<_> = worked::ring_of_each_answer()
        .iter()
        .filter(|(count, _)| *count == 0)
        .map(|(_, ring)| last_vertices(ring, worked::BOUNDS).unwrap_or("no vertex"))
        .collect();
    assert_eq!(lost, ["no vertex", "none after Bottom", "none after Top", "too few after Top", "too few after Top"]);
}

/// The numbers from one place of a lent slice up to another, as they were before the call.
fn as_it_was(from: usize, to: usize) -> Vec<f64> {
    (from..to).map(unwritten).collect()
}

#[test]
fn a_mistaken_ring_call_leaves_what_the_mistake_says() {
    let left = |mistake: Mistake, ring: &[(f64, f64)], answer: i64, expected: &[f64]| {
        let call = worked::ring_call(ring, Beside { out: 2, ..Beside::default() });
        let after = ring_call(&Reading::with(mistake), &call);
        assert_eq!((after.answer, bits(&after.out)), (answer, bits(expected)), "{mistake:?}");
        let right = ring_call(&Reading::RIGHT, &call);
        assert!(answer < 0 || after.out_origins == right.out_origins, "{mistake:?}");
    };
    // B(1) is 3: of eight numbers six have to be zeros.
    let vertex = [(5., 5.)];
    left(Mistake::KeepsOutputPastAnswer, &vertex, 0, &as_it_was(0, 8));
    left(Mistake::ClearsOnCutOnly, &vertex, 0, &as_it_was(0, 8));
    left(Mistake::ClearsOutputToEnd, &vertex, 0, &[0.0; 8]);
    left(Mistake::ClearsWithNegativeZeros, &vertex, 0, &[vec![-0.0; 6], as_it_was(6, 8)].concat());
    // An open triangle: B(3) is 15, and B(4) 21.
    let triangle = [(2., 2.), (8., 2.), (8., 8.)];
    let cut = [2., 2., 8., 2., 8., 8., 2., 2.];
    left(Mistake::KeepsOutputPastAnswer, &triangle, 4, &[cut.to_vec(), as_it_was(8, 32)].concat());
    left(Mistake::ClearsOnCutOnly, &triangle, 4, &[cut.to_vec(), vec![0.0; 22], as_it_was(30, 32)].concat());
    left(Mistake::RoomClosedInRingCall, &triangle, -21, &as_it_was(0, 32));
    // A scratch slice one number short.
    let short = worked::ring_call(&triangle, Beside { scratch: -1, ..Beside::default() });
    assert_eq!(ring_call(&Reading::with(Mistake::ScratchUnseen), &short).answer, 4);
}

/// The origins from one place of a lent slice up to another, as they were before the call.
fn origins_as_they_were(from: usize, to: usize) -> Vec<u16> {
    (from..to).map(unwritten_origin).collect()
}

#[test]
fn a_mistaken_ring_call_leaves_origins_as_the_mistake_says() {
    use Mistake::*;

    let spare = Beside { origin_scratch: 2, out_origins: 40, ..Beside::default() };
    let left = |mistake: Mistake, ring: &[(f64, f64)], origins: &[u16]| {
        let call = worked::ring_call(ring, spare);
        let (right, after) = (ring_call(&Reading::RIGHT, &call), ring_call(&Reading::with(mistake), &call));
        assert_eq!((after.answer, bits(&after.out)), (right.answer, bits(&right.out)), "{mistake:?}");
        assert_eq!((after.out_origins, after.origin_scratch), (origins.to_vec(), right.origin_scratch), "{mistake:?}");
    };
    // B(1) is 3, and B(5) 24.
    let (vertex, cut) = ([(5., 5.)], vec![0, RIGHT, RIGHT, 3, 0]);
    left(KeepsOriginsPastAnswer, &vertex, &origins_as_they_were(0, 43));
    left(ClearsOriginsOnCutOnly, &vertex, &origins_as_they_were(0, 43));
    left(ClearsOriginsToEnd, &vertex, &[0; 43]);
    left(ClearsOriginsTwiceAsFar, &vertex, &[vec![0; 6], origins_as_they_were(6, 43)].concat());
    left(KeepsOriginsPastAnswer, &ACROSS_EAST, &[cut.clone(), origins_as_they_were(5, 64)].concat());
    left(ClearsOriginsOnCutOnly, &ACROSS_EAST, &[cut.clone(), vec![0; 19], origins_as_they_were(24, 64)].concat());
    left(ClearsOriginsTwiceAsFar, &ACROSS_EAST, &[cut, vec![0; 43], origins_as_they_were(48, 64)].concat());
    let scratch = |mistake: Mistake| {
        let call = worked::ring_call(&ACROSS_EAST, spare);
        ring_call(&Reading::with(mistake), &call).origin_scratch
    };
    assert_eq!(scratch(KeepsOriginScratch), origins_as_they_were(0, 26));
    assert_eq!(scratch(ClearsOriginScratchUsed), [vec![0; 24], origins_as_they_were(24, 26)].concat());
    // Slices one origin short, and exact.
    let answer = |mistake: Mistake, origin_scratch: isize, out_origins: isize| {
        let call = worked::ring_call(&ACROSS_EAST, Beside { origin_scratch, out_origins, ..Beside::default() });
        ring_call(&Reading::with(mistake), &call).answer
    };
    assert_eq!([answer(OriginScratchUnseen, -1, 0), answer(OriginScratchUnseen, 0, -1)], [5, -22]);
    assert_eq!([answer(OriginsUnseen, 0, -1), answer(OriginsUnseen, -1, 0)], [5, -21]);
    assert_eq!([answer(ShortOriginScratchIs22, -1, 0), answer(ShortOriginsAre21, 0, -1)], [-22, -21]);
    assert_eq!([answer(OriginScratchInNumbers, 23, 0), answer(OriginScratchInNumbers, 24, 0)], [-21, 5]);
    assert_eq!([answer(OriginsInNumbers, 0, 23), answer(OriginsInNumbers, 0, 24)], [-22, 5]);
    let refused = worked::ring_call(&ACROSS_EAST, Beside { out: -1, ..Beside::default() });
    let after = ring_call(&Reading::with(WritesOriginsBeforeRefusing), &refused);
    assert_eq!((after.answer, after.origin_scratch), (-22, vec![0; 24]));
}

#[test]
fn a_mistaken_slice_call_leaves_origins_as_the_mistake_says() {
    let call = worked::slice_call(0, &[ACROSS_EAST.to_vec()], Beside { out_origins: 1, ..Beside::default() });
    let left = |mistake: Mistake| slice_call(&Reading::with(mistake), &call).out_origins;
    // The bridge along the east bound is found once the exterior is cut. B(5) is 24.
    let cut = vec![0, RIGHT, RIGHT, 3, 0];
    assert_eq!(left(Mistake::OverlayLeavesCut), [vec![0; 24], origins_as_they_were(24, 25)].concat());
    assert_eq!(left(Mistake::OverlayLeavesOrigins), [cut, vec![0; 19], origins_as_they_were(24, 25)].concat());
    assert_eq!(left(Mistake::ClearsOriginsOnCutOnly), origins_as_they_were(0, 25));
    let two_rings = worked::slice_call(0, &[ACROSS_EAST.to_vec(), ACROSS_EAST.to_vec()], Beside::default());
    assert_eq!(slice_call(&Reading::with(Mistake::OriginScratchBySum), &two_rings).answer, -21);
}

#[test]
fn a_mistaken_slice_call_leaves_what_the_mistake_says() {
    let (cut_to_one_ring, bridge) = (4 + 65_536, 5 + 256 * 4);
    let spare = Beside { out: 2, out_lengths: 1, ..Beside::default() };
    let left = |mistake: Mistake, flags: u8, ring: &[(f64, f64)], answer: i64, expected: &[f64]| {
        let call = worked::slice_call(flags, &[ring.to_vec()], spare);
        let after = slice_call(&Reading::with(mistake), &call);
        assert_eq!((after.answer, bits(&after.out)), (answer, bits(expected)), "{mistake:?}");
        let rings = usize::from(answer == cut_to_one_ring);
        assert_eq!(after.out_lengths[rings..], call.out_lengths[rings..], "{mistake:?}");
    };
    // B(2) is 11 and B(1) 3.
    let lone_nan = [(f64::NAN, 5.)];
    left(Mistake::KeepsOutputPastAnswer, 0, &lone_nan, 1, &as_it_was(0, 24));
    left(Mistake::ClearsOnCutOnly, 0, &lone_nan, 1, &as_it_was(0, 24));
    left(Mistake::ClearsOutputToEnd, 0, &lone_nan, 1, &[0.0; 24]);
    left(Mistake::ClearsWithNegativeZeros, 0, &lone_nan, 1, &[vec![-0.0; 22], as_it_was(22, 24)].concat());
    left(Mistake::ClearsByUnclosedLengths, 0, &lone_nan, 1, &[vec![0.0; 6], as_it_was(6, 24)].concat());
    left(Mistake::NanSingleStaysOne, 0, &lone_nan, 1, &[vec![0.0; 6], as_it_was(6, 24)].concat());
    // B(5) is 24. The bridge along the east bound is found once the exterior is cut.
    let cut = [5., 5., 10., 5., 10., 8., 5., 8., 5., 5.];
    let zeros_behind = [cut.to_vec(), vec![0.0; 38], as_it_was(48, 50)].concat();
    left(Mistake::OverlayLeavesCut, 3, &ACROSS_EAST, cut_to_one_ring, &zeros_behind);
    left(Mistake::OverlayLeavesCut, 0, &ACROSS_EAST, bridge, &zeros_behind);
    left(Mistake::ClearsOnCutOnly, 3, &ACROSS_EAST, cut_to_one_ring, &zeros_behind);
    left(Mistake::ClearsOnCutOnly, 0, &ACROSS_EAST, bridge, &as_it_was(0, 50));
    // A scratch slice one number short, and two rings with one as long as the larger asks.
    let two_rings = [ACROSS_EAST.to_vec(), ACROSS_EAST.to_vec()];
    let short = worked::slice_call(0, &two_rings, Beside { scratch: -1, ..Beside::default() });
    assert_eq!(slice_call(&Reading::with(Mistake::ScratchUnseen), &short).answer, bridge);
    let exact = worked::slice_call(0, &two_rings, Beside::default());
    assert_eq!(slice_call(&Reading::with(Mistake::ScratchBySum), &exact).answer, -21);
}

fn bits(numbers: &[f64]) -> Vec<u64> {
    numbers.iter().map(|number| number.to_bits()).collect()
}

/// How often each shape is met, by its name.
type Met = BTreeMap<String, u32>;

/// Calls of each style that are looked at, but for the long ones, which take long.
const LOOKED_AT: u64 = 3_000;
const LONG: usize = 1_000;

/// Every shape has to be met so often.
const ENOUGH: u32 = 20;

#[test]
fn the_generator_meets_every_shape_of_a_ring_call() {
    let mut met = Met::new();
    for call in specimens(generator::ring_call, |call| call.ring.len()) {
        assert!(call.out.iter().chain(&call.scratch).all(|&number| number != 0.0), "a zero is lent");
        assert!(call.out_origins.iter().chain(&call.origin_scratch).all(|&origin| origin != 0), "a zero is lent");
        count(&mut met, ring_shapes(&call));
    }
    let mut expected = Vec::new();
    for answer in ["ring", "empty"] {
        for slice in ["output", "scratch", "origins", "origin scratch"] {
            expected.extend(each_length(answer, slice, ["exact", "longer by one", "longer by many"]));
        }
        expected.push(format!("{answer}, open"));
    }
    for slice in ["output", "origins"] {
        expected.extend(each_length("21", slice, ["exact", "one short", "longer by many"]));
        expected.extend(each_length("22", slice, ["one short"]));
    }
    for slice in ["scratch", "origin scratch"] {
        expected.extend(each_length("22", slice, ["exact", "longer by one", "longer by many"]));
        expected.extend(each_length("21", slice, ["one short"]));
    }
    expected.extend(["none after Bottom", "none after Top", "too few after Top"].map(String::from));
    assert_met(&met, &expected);
}

#[test]
fn the_generator_meets_every_shape_of_a_slice_call() {
    let mut met = Met::new();
    for call in specimens(generator::slice_call, |call| call.coords.len()) {
        assert!(call.out.iter().chain(&call.scratch).all(|&number| number != 0.0), "a zero is lent");
        assert!(call.order.iter().chain(&call.out_lengths).all(|&whole| whole != 0), "a zero is lent");
        assert!(call.out_origins.iter().chain(&call.origin_scratch).all(|&origin| origin != 0), "a zero is lent");
        count(&mut met, slice_shapes(&call));
    }
    let mut expected = Vec::new();
    let before_a_cut = ["nothing", "dropped", "unchanged", "overlay"];
    let behind_a_cut = ["cut", "nothing behind a cut", "dropped behind a cut", "overlay behind a cut"];
    for answer in before_a_cut.into_iter().chain(behind_a_cut) {
        for slice in ["output", "scratch", "order", "origins", "origin scratch"] {
            expected.extend(each_length(answer, slice, ["exact", "longer by one", "longer by many"]));
        }
        expected.push(format!("{answer}, a ring open"));
        expected.push(format!("{answer}, several rings"));
    }
    for slice in ["scratch", "order", "origin scratch"] {
        expected.extend(each_length("21", slice, ["exact", "one short", "longer by many"]));
    }
    for slice in ["output", "origins"] {
        expected.extend(each_length("22", slice, ["exact", "one short", "longer by many"]));
    }
    expected.push("nothing behind a cut, none after Bottom".to_string());
    expected.push("a hole left out before one that stays".to_string());
    expected.push("a hole of which none is left after Bottom before one that stays".to_string());
    assert_met(&met, &expected);
}

fn specimens<T>(call: fn(Style, u64, u64) -> T, numbers: impl Fn(&T) -> usize) -> impl Iterator<Item = T> {
    let of_style = move |style| (0..LOOKED_AT).map(move |index| call(style, 1, index));
    Style::ALL.into_iter().flat_map(of_style).filter(move |call| numbers(call) <= LONG)
}

fn count(met: &mut Met, shapes: Vec<String>) {
    for shape in shapes {
        *met.entry(shape).or_default() += 1;
    }
}

fn each_length<const N: usize>(answer: &str, slice: &str, lengths: [&str; N]) -> [String; N] {
    lengths.map(|length| format!("{answer}, {slice} {length}"))
}

fn assert_met(met: &Met, expected: &[String]) {
    let times = |shape: &String| met.get(shape).copied().unwrap_or(0);
    let missed: Vec<(&String, u32)> =
        expected.iter().map(|shape| (shape, times(shape))).filter(|(_, times)| *times < ENOUGH).collect();
    assert_eq!(missed, []);
}

/// How long a lent slice is beside what is asked of it.
fn beside(length: usize, asked: usize) -> &'static str {
    match length.checked_sub(asked) {
        None if length + 1 == asked => "one short",
        None => "too short",
        Some(0) => "exact",
        Some(1) => "longer by one",
        Some(2..100) => "longer",
        Some(_) => "longer by many",
    }
}

fn ring_shapes(call: &RingCall) -> Vec<String> {
    let oracle = oracle::ring_call(call);
    let answer = ring_label(&oracle);
    let mut shapes = vec![
        format!("{answer}, output {}", beside(call.out.len(), call.room())),
        format!("{answer}, scratch {}", beside(call.scratch.len(), call.room())),
        format!("{answer}, origins {}", beside(call.out_origins.len(), call.origin_room())),
        format!("{answer}, origin scratch {}", beside(call.origin_scratch.len(), call.origin_room())),
    ];
    let ring = pairs(&call.ring);
    if closed_length(&ring) != ring.len() {
        shapes.push(format!("{answer}, open"));
    }
    if answer == "empty" {
        shapes.extend(last_vertices(&ring, call.bounds).map(String::from));
    }
    shapes
}

/// Where the last vertices of a ring that is cut to none are lost, if Left and Right leave any.
fn last_vertices(ring: &Ring, bounds: Bounds) -> Option<&'static str> {
    let mut ring = ring.clone();
    let left = Edge::ALL.map(|edge| {
        let call = PassCall { bounds, ..worked_call(&ring, edge, 0) };
        ring = oracle::pass(&call).expect("every slice has room").cut.ring;
        ring.len()
    });
    match left {
        [_, 0, _, _] => None,
        [_, _, 0, _] => Some("none after Bottom"),
        [_, _, _, 0] => Some("none after Top"),
        _ => Some("too few after Top"),
    }
}

fn slice_shapes(call: &SliceCall) -> Vec<String> {
    let Ok(rings) = call.rings() else {
        return Vec::new();
    };
    let oracle = oracle::slice_call(call);
    let exterior_is_cut = is_cut(call, &rings);
    let answer = match slice_label(&oracle) {
        answer @ ("nothing" | "dropped" | "overlay") if exterior_is_cut => format!("{answer} behind a cut"),
        answer => answer.to_string(),
    };
    let largest = rings.iter().map(|ring| most_cut(closed_length(ring))).max().unwrap_or(0);
    let mut shapes = vec![
        format!("{answer}, output {}", beside(call.out.len(), call.room())),
        format!("{answer}, scratch {}", beside(call.scratch.len(), 2 * largest)),
        format!("{answer}, order {}", beside(call.order.len(), largest)),
        format!("{answer}, origins {}", beside(call.out_origins.len(), call.origin_room())),
        format!("{answer}, origin scratch {}", beside(call.origin_scratch.len(), largest)),
    ];
    if rings.iter().any(|ring| closed_length(ring) != ring.len()) {
        shapes.push(format!("{answer}, a ring open"));
    }
    if rings.len() > 1 {
        shapes.push(format!("{answer}, several rings"));
    }
    if last_vertices(&rings[0], buffered(call)) == Some("none after Bottom") {
        shapes.push(format!("{answer}, none after Bottom"));
    }
    if matches!(oracle, Ok(SliceAnswer::Cut(_))) {
        shapes.extend(hole_shapes(&rings[1..], buffered(call)).into_iter().map(String::from));
    }
    shapes
}

fn buffered(call: &SliceCall) -> Bounds {
    let ([west, south, east, north], buffer) = (call.bounds, call.buffer);
    [west - buffer, south - buffer, east + buffer, north + buffer]
}

/// Whether the exterior is cut before the answer is known: all is finite, not apart from the bounds and not inside them, and the
/// exterior has no issue.
fn is_cut(call: &SliceCall, rings: &[Ring]) -> bool {
    let [west, south, east, north] = buffered(call);
    let any = |holds: &dyn Fn(f64, f64) -> bool| rings.iter().flatten().any(|&(x, y)| holds(x, y));
    let finite = call.coords.iter().all(|number| number.is_finite());
    let meets = any(&|x, _| x >= west) && any(&|x, _| x <= east) && any(&|_, y| y >= south) && any(&|_, y| y <= north);
    let inside = !any(&|x, y| x < west || x > east || y < south || y > north);
    finite && meets && !inside && oracle::issue(&rings[0], call.assume_simple).is_none()
}

/// Of the holes of a cut: is one left out before one that stays?
fn hole_shapes(holes: &[Ring], bounds: Bounds) -> Vec<&'static str> {
    let stays = |hole: &Ring| {
        let mut ring = hole.clone();
        ring.extend((closed_length(hole) > hole.len()).then(|| hole[0]));
        let cut = RingCall { bounds, ..worked::ring_call(&ring, Beside::default()) };
        oracle::ring_call(&cut).expect("every slice has room").ring.len() >= 4
    };
    let last = holes.iter().rposition(stays).unwrap_or(0);
    let left_out: Vec<&Ring> = holes[..last].iter().filter(|hole| !stays(hole)).collect();
    let mut shapes = Vec::new();
    if !left_out.is_empty() {
        shapes.push("a hole left out before one that stays");
    }
    if left_out.iter().any(|hole| last_vertices(hole, bounds) == Some("none after Bottom")) {
        shapes.push("a hole of which none is left after Bottom before one that stays");
    }
    shapes
}
