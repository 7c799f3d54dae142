//! The slice call of the port against the Rust, the share that every test run takes: random calls, every limit from both
//! sides, lent slices exact, one short and longer, flags set by every number, long rings with the sweep, and document 01's
//! worked polygons.

use compare::shallow::{shallow_before_crossing, shallow_by_number, shallow_when_cut, SHALLOW, WIDE};
use compare::worked::{
    self, exterior_of_each_reason, late_crossing, late_repeat, overflowing_cut, polygon_of_each_answer, regular,
    slice_call as lent, unclosed, unwritten, unwritten_origin, Beside, ACROSS_EAST, APART, BOW_TIE, EVERY_FLAG, INSIDE,
    OVERFLOWING, RIGHT,
};
use formats::calls::{SliceAfter, SliceAnswer, SliceCall, MOST_COORDINATES};
use formats::frame::MOST_RINGS;
use formats::origins::CutRing;
use formats::reason::Reason;
use formats::{Bounds, Coord, Part, Ring};
use port::calls;
use port::slices::{self, check_against};

/// A call on these rings with document 01's flags 0 to 3, each lent slice exactly as long as its formula asks.
fn call(flags: u8, part: &[Ring]) -> SliceCall {
    lent(flags, part, Beside::default())
}

/// Held to the Rust; the answer's label.
fn checked(call: &SliceCall) -> &'static str {
    slices::check(call, 1).unwrap_or_else(|difference| panic!("{difference}"))
}

fn answered(call: &SliceCall) -> i64 {
    checked(call);
    slices::answer(call, 1).answer
}

fn overlay(number: u8, first: u32, second: u32) -> SliceAnswer {
    SliceAnswer::Overlay(Reason { number, first, second })
}

/// What is left of the square across the east bound.
fn cut_across_east() -> CutRing {
    let ring = vec![(5., 5.), (10., 5.), (10., 8.), (5., 8.), (5., 5.)];
    CutRing { ring, origins: vec![0, RIGHT, RIGHT, 3, 0] }
}

#[test]
fn slice_calls_agree() {
    slices::compare(1, 15_000).assert_agreed(11 * 15_000);
}

#[test]
fn ring_counts_agree_at_their_limits() {
    assert_eq!(checked(&call(0, &[])), "19");
    assert_eq!(checked(&lent(0, &[], Beside::all(100))), "19");
    for rings in [1, MOST_RINGS - 1, MOST_RINGS, MOST_RINGS + 1] {
        let refused = rings > MOST_RINGS;
        let with_holes = |hole: Ring| -> Part { [vec![ACROSS_EAST.to_vec()], vec![hole; rings - 1]].concat() };
        for flags in 0..4 {
            let holes = call(flags, &with_holes(regular(6, (10., 6.), 1.)));
            let empty_holes = call(flags, &with_holes(Vec::new()));
            let empty_rings = call(flags, &vec![Vec::new(); rings]);
            if refused {
                assert_eq!([&holes, &empty_holes, &empty_rings].map(checked), ["19"; 3]);
            } else {
                let overlay_or = |cut: i64| if flags == 3 { cut } else { overlay(4, 0, 0).code() };
                assert_eq!(answered(&holes), overlay_or(4 + 65_536 * rings as i64));
                assert_eq!(answered(&empty_holes), overlay_or(4 + 65_536));
                assert_eq!(answered(&empty_rings), 0);
            }
        }
    }
}

#[test]
fn coordinates_agree_at_their_limit() {
    let ring = |coordinates: usize| regular(coordinates, (10., 5.), 4.);
    let nan = vec![(1., f64::NAN)];
    let half = MOST_COORDINATES / 2;
    for (part, label) in [
        (vec![ring(MOST_COORDINATES)], "cut"),
        (vec![ring(MOST_COORDINATES + 1)], "20"),
        (vec![ring(65_536)], "20"),
        (vec![ring(half), ring(half)], "cut"),
        (vec![ring(half), ring(half + 1)], "20"),
        (vec![ring(half), ring(half), Vec::new()], "cut"),
        (vec![INSIDE.to_vec(), ring(MOST_COORDINATES - 5)], "cut"),
        (vec![INSIDE.to_vec(), ring(MOST_COORDINATES - 4)], "20"),
        // Lent with 65,531 coordinates and with 65,532; closing appends one.
        (vec![unclosed(ring(MOST_COORDINATES))], "cut"),
        (vec![unclosed(ring(MOST_COORDINATES + 1))], "20"),
        // Lent with 65,531 each; closing appends one, and two.
        (vec![unclosed(ring(half)), ring(half)], "cut"),
        (vec![unclosed(ring(half)), unclosed(ring(half + 1))], "20"),
        // A single NaN coordinate counts as two.
        (vec![ring(MOST_COORDINATES - 2), nan.clone()], "dropped"),
        (vec![ring(MOST_COORDINATES - 1), nan.clone()], "20"),
        (vec![nan.clone(), ring(MOST_COORDINATES - 1)], "20"),
        (vec![nan.clone(), ring(MOST_COORDINATES - 4), nan], "dropped"),
    ] {
        let lengths: Vec<usize> = part.iter().map(|ring| ring.len()).collect();
        assert_eq!(checked(&call(3, &part)), label, "rings of {lengths:?}");
    }
    // A ring lent closed whose first coordinate holds a NaN grows all the same.
    let mut with_nan = ring(MOST_COORDINATES);
    with_nan[0].0 = f64::NAN;
    with_nan[MOST_COORDINATES - 1] = with_nan[0];
    assert_eq!(checked(&call(3, &[with_nan.clone()])), "20");
    with_nan.remove(1);
    assert_eq!(checked(&call(3, &[with_nan])), "dropped");
    // 20 comes before 21 and 22.
    assert_eq!(checked(&lent(3, &[ring(MOST_COORDINATES + 1)], Beside::all(-1))), "20");
}

#[test]
fn lengths_that_do_not_fit_are_refused() {
    let most = u32::MAX;
    for (numbers, lengths) in [
        // The sum fits in 32 bits where the carry is lost, or twice the sum does.
        (0, vec![most]),
        (0, vec![most, 1]),
        (0, vec![1 << 31]),
        (0, vec![1 << 31, 1 << 31]),
        (8, vec![most, 5]),
        (8, vec![most, 1, 4]),
        (8, vec![4 + (1 << 31)]),
        (8, vec![4, 1 << 31]),
        (8, vec![most; MOST_RINGS]),
        (2 * MOST_COORDINATES, vec![most; MOST_RINGS]),
        // An odd count of numbers.
        (1, vec![0]),
        (1, vec![1]),
        (7, vec![4]),
        (9, vec![4]),
        (9, vec![2, 2]),
        (9, vec![5]),
        // One coordinate more and less.
        (8, vec![3]),
        (8, vec![5]),
        (8, vec![4, 1]),
        (0, vec![1]),
        (2, vec![0]),
        (8, vec![]),
    ] {
        for beside in [0, -1, 50] {
            let mut call = lent(0, &[INSIDE.to_vec()], Beside::all(beside));
            call.coords = (0..numbers).map(|k| k as f64).collect();
            call.lengths = lengths.clone();
            assert_eq!(checked(&call), "19", "{numbers} numbers, {beside} beside, lengths {lengths:?}");
        }
    }
}

#[test]
fn lent_slices_exact_one_short_and_longer() {
    for (label, flags, part) in polygon_of_each_answer() {
        assert_eq!(checked(&call(flags, &part)), label, "exact");
        let exact = Beside::default();
        let coordinates: usize = part.iter().map(|ring| ring.len()).sum();
        let (scratch, output) = if coordinates == 0 { (label, label) } else { ("21", "22") };
        for (beside, label) in [
            (Beside { scratch: -1, ..exact }, scratch),
            (Beside { origin_scratch: -1, ..exact }, scratch),
            (Beside { order: -1, ..exact }, scratch),
            (Beside { out: -1, ..exact }, output),
            (Beside { out_lengths: -1, ..exact }, "22"),
            (Beside { out_origins: -1, ..exact }, output),
            // 21 comes before 22.
            (Beside { scratch: -1, out: -1, ..exact }, scratch),
            (Beside { order: -1, out: -1, ..exact }, scratch),
            (Beside { origin_scratch: -1, out: -1, out_origins: -1, ..exact }, scratch),
            // Where one is short no other makes up for it.
            (Beside { scratch: -1, ..Beside::all(9) }, scratch),
            (Beside { origin_scratch: -1, ..Beside::all(9) }, scratch),
            (Beside { order: -1, ..Beside::all(9) }, scratch),
            (Beside { out: -1, ..Beside::all(9) }, output),
            (Beside { out_lengths: -1, ..Beside::all(9) }, "22"),
            (Beside { out_origins: -1, ..Beside::all(9) }, output),
            (Beside { scratch: isize::MIN, ..exact }, scratch),
            (Beside { origin_scratch: isize::MIN, ..exact }, scratch),
            (Beside { order: isize::MIN, ..exact }, scratch),
            (Beside { out: isize::MIN, ..exact }, output),
            (Beside { out_lengths: isize::MIN, ..exact }, "22"),
            (Beside { out_origins: isize::MIN, ..exact }, output),
        ] {
            assert_eq!(checked(&lent(flags, &part, beside)), label, "{beside:?}, {part:?}");
        }
        for beside in [1, 2, 3, 500] {
            assert_eq!(checked(&lent(flags, &part, Beside::all(beside))), label, "{beside} more");
            assert_eq!(checked(&lent(flags, &part, Beside { out: beside, ..exact })), label, "output {beside} more");
        }
    }
}

/// How many numbers of the output the rings of a cut take; none of any other answer.
fn numbers_of_cut(after: &SliceAfter) -> usize {
    let rings = if after.answer & 0xff == 4 { after.answer as usize >> 16 } else { 0 };
    2 * after.out_lengths[..rings].iter().sum::<u32>() as usize
}

/// Said once more without `formats`: what a call leaves in slices that are longer than needed.
#[test]
fn a_success_leaves_zeros_behind_the_cut_as_far_as_22_asks() {
    for (label, flags, part) in polygon_of_each_answer() {
        for spare in [0, 1, 2, 1_000] {
            let call = lent(flags, &part, Beside::all(spare));
            let after = slices::answer(&call, 1);
            assert!(after.scratch.iter().all(|number| number.to_bits() == 0), "{label}");
            assert!(after.order.iter().all(|&position| position == 0), "{label}");
            let (numbers, asked) = (numbers_of_cut(&after), call.out.len() - spare as usize);
            assert_eq!(label == "cut", numbers > 0);
            assert!((0..numbers).all(|place| after.out[place] != unwritten(place)), "{label}");
            assert!(after.out[numbers..asked].iter().all(|number| number.to_bits() == 0), "{label}");
            assert!((asked..after.out.len()).all(|place| after.out[place] == unwritten(place)), "{label}");
            let (origins, written, asked) = (&after.out_origins, numbers / 2, asked / 2);
            assert!(after.origin_scratch.iter().all(|&origin| origin == 0), "{label}");
            assert!((0..written).all(|place| origins[place] != unwritten_origin(place)), "{label}");
            assert!(origins[written..asked].iter().all(|&origin| origin == 0), "{label}");
            assert!((asked..origins.len()).all(|place| origins[place] == unwritten_origin(place)), "{label}");
            let rings = if label == "cut" { after.answer as usize >> 16 } else { 0 };
            assert_eq!(after.out_lengths[rings..], call.out_lengths[rings..], "{label}");
        }
    }
}

/// Of document 02's point 4: a coordinate with a NaN doesn't equal itself, so closed the ring has two. 22 zeros, and not 6.
#[test]
fn a_slice_call_that_drops_writes_zeros_for_the_closed_ring() {
    let call = worked::lone_nan();
    let after = slices::answer(&call, 1);
    assert_eq!((after.answer, after.out.len()), (1, 23));
    assert!(after.out[..22].iter().chain(&after.scratch).all(|number| number.to_bits() == 0), "{after:?}");
    assert_eq!((after.out[22], &after.out_lengths), (call.out[22], &call.out_lengths));
    assert!(after.out_origins[..11].iter().chain(&after.origin_scratch).all(|&origin| origin == 0), "{after:?}");
    assert_eq!(after.out_origins[11..], call.out_origins[11..]);
    assert_eq!(checked(&call), "dropped");
}

/// The cut's numbers and origins stand one behind the other: a hole that is left out leaves no gap, wherever it stands.
#[test]
fn a_hole_left_out_leaves_no_gap() {
    let stays = regular(7, (9.5, 6.5), 1.);
    let left_out = [worked::BEYOND_SOUTH_EAST.to_vec(), worked::BEYOND_NORTH_EAST.to_vec(), APART.to_vec(), Vec::new()];
    let without = slices::answer(&call(3, &[ACROSS_EAST.to_vec(), stays.clone(), stays.clone()]), 1);
    let numbers = numbers_of_cut(&without);
    for hole in left_out {
        for place in 1..=3 {
            let mut part = vec![ACROSS_EAST.to_vec(), stays.clone(), stays.clone()];
            part.insert(place, hole.clone());
            let call = lent(3, &part, Beside::all(1));
            assert_eq!(answered(&call), 4 + 65_536 * 3);
            let after = slices::answer(&call, 1);
            assert_eq!(after.out[..numbers], without.out[..numbers], "left out as ring {place}");
            let origins = numbers / 2;
            assert_eq!(after.out_origins[..origins], without.out_origins[..origins], "left out as ring {place}");
            assert_eq!(after.out_lengths[..3], without.out_lengths[..3], "left out as ring {place}");
        }
    }
}

/// The comparison takes any NaN for any NaN; what is not written keeps its bits too.
#[test]
fn what_is_not_written_keeps_its_bits() {
    let payload = f64::from_bits(0xfff4_dead_beef_0001);
    let same_bits = |a: &[f64], b: &[f64]| a.iter().map(|x| x.to_bits()).eq(b.iter().map(|x| x.to_bits()));
    for (label, flags, part) in polygon_of_each_answer() {
        for beside in [Beside::all(3), Beside { out_lengths: -1, ..Beside::default() }] {
            let mut call = lent(flags, &part, beside);
            for lent in [&mut call.scratch, &mut call.out] {
                lent.fill(payload);
            }
            let after = slices::answer(&call, 1);
            if after.answer < 0 {
                assert_eq!(after.answer, -22);
                assert!(same_bits(&after.scratch, &call.scratch) && same_bits(&after.out, &call.out), "{label}");
            } else {
                let asked = call.out.len() - beside.out as usize;
                assert!(same_bits(&after.out[asked..], &call.out[asked..]), "{label}, {beside:?}");
            }
        }
    }
}

#[test]
fn any_number_but_0_sets_a_flag() {
    let answer = |call: &SliceCall, assume_simple: u8, skip_boundary_fallback: u8| {
        let flags = calls::Flags { assume_simple, skip_boundary_fallback };
        let mut after = call.after(&Err(0));
        calls::polygon(flags, &call.bounds, call.buffer, &call.coords, &call.lengths, calls::lent(&mut after))
    };
    let (bow_tie, across) = (call(0, &[BOW_TIE.to_vec()]), call(0, &[ACROSS_EAST.to_vec()]));
    let (crossing, bridge, cut) = (overlay(8, 0, 2).code(), overlay(4, 0, 0).code(), 4 + 65_536);
    for number in 0..=255 {
        let if_set = |set: i64, not_set: i64| if number == 0 { not_set } else { set };
        assert_eq!(answer(&bow_tie, number, 0), if_set(2, crossing), "assume_simple {number}");
        assert_eq!(answer(&bow_tie, 0, number), crossing, "skip_boundary_fallback {number}");
        assert_eq!(answer(&across, 1, number), if_set(cut, bridge), "skip_boundary_fallback {number}");
        assert_eq!(answer(&across, number, 1), if_set(cut, bridge), "assume_simple {number}");
        assert_eq!(answer(&across, 0, number), bridge, "skip_boundary_fallback {number} alone");
        for flags in 0..4 {
            for part in [BOW_TIE, ACROSS_EAST] {
                let checked = slices::check(&call(flags, &[part.to_vec()]), number.max(1));
                assert!(checked.is_ok(), "flags {flags}, set by {number}: {checked:?}");
            }
        }
    }
}

#[test]
fn an_empty_exterior_with_coordinates_in_a_hole() {
    let short = overlay(1, 0, 0).code();
    for flags in 0..4 {
        assert_eq!(answered(&call(flags, &[vec![], INSIDE.to_vec()])), short);
        assert_eq!(answered(&call(flags, &[vec![], ACROSS_EAST.to_vec(), vec![]])), short);
        assert_eq!(answered(&call(flags, &[vec![], APART.to_vec()])), 0);
        assert_eq!(answered(&call(flags, &[vec![], vec![(1e150, 2.), (2., 2.)]])), 1);
        assert_eq!(answered(&call(flags, &[vec![], vec![(f64::NAN, 2.)]])), 1);
        assert_eq!(answered(&call(flags, &[vec![], vec![], vec![]])), 0);
    }
}

#[test]
fn the_buffer_widens_and_narrows_the_bounds() {
    let buffered = |buffer: f64, ring: &[Coord]| answered(&SliceCall { buffer, ..call(3, &[ring.to_vec()]) });
    let (nothing, unchanged, cut) = (0, 2, 4 + 65_536);
    for (buffer, inside, across_east, apart) in [
        (0.0, unchanged, cut, nothing),
        (-1.0, unchanged, cut, nothing),
        (-2.5, cut, cut, nothing),
        (-5.5, nothing, nothing, nothing),
        (1.0, unchanged, cut, nothing),
        (5.0, unchanged, unchanged, nothing),
        (10.5, unchanged, unchanged, cut),
        (20.0, unchanged, unchanged, unchanged),
        (f64::NAN, nothing, nothing, nothing),
        (f64::INFINITY, unchanged, unchanged, unchanged),
    ] {
        assert_eq!(buffered(buffer, &INSIDE), inside, "buffer {buffer}");
        assert_eq!(buffered(buffer, &ACROSS_EAST), across_east, "buffer {buffer}");
        assert_eq!(buffered(buffer, &APART), apart, "buffer {buffer}");
    }
}

/// Edges that all but touch: the rounded test finds a crossing in the cut exterior and none in the input. Reason 10, unless
/// `assume_simple` leaves the test out.
#[test]
fn a_cut_exterior_may_cross_where_the_input_does_not() {
    let part = [vec![(1.5e-10, 0.), (0., 0.9999999999), (1., -1.00000000015), (1e-10, 5e-11), (1.5e-10, 0.)]];
    let answers = [0, 1, 2, 3].map(|flags| {
        let call = SliceCall { bounds: [0.0, 0.0, 4.0, 4.0], buffer: 1e-10, ..call(flags, &part) };
        answered(&call)
    });
    let (crossing, bridge) = (overlay(10, 0, 3).code(), overlay(5, 0, 0).code());
    assert_eq!(answers, [crossing, bridge, crossing, 4 + 65_536]);
}

/// There and back, the first vertex repeated: each pass leaves off one, so that a hole of seven coordinates is cut to three
/// and left out, and one of eight is cut to four and stays.
#[test]
fn a_cut_hole_under_4_coordinates_is_left_out() {
    for repeats in 0..9 {
        let hole = [vec![(6., 6.), (7., 7.)], vec![(6., 6.); repeats]].concat();
        let rings = if repeats < 6 { 1 } else { 2 };
        let part = [ACROSS_EAST.to_vec(), hole];
        assert_eq!(answered(&call(3, &part)), 4 + 65_536 * rings, "repeated {repeats} times");
    }
}

/// Exteriors on both sides of the scan's limit and of any length, with 0 to 5 holes, looked at by the sweep where the flags
/// have it.
#[test]
fn holes_and_long_rings_agree() {
    for coordinates in [4, 5, 32, 33, 34, 35, 317, 1_025, 4_097, MOST_COORDINATES] {
        for holes in 0..=5 {
            let of_hole = (coordinates / 16).max(4);
            let of_exterior = if coordinates == MOST_COORDINATES { coordinates - holes * of_hole } else { coordinates };
            // No vertex lies on a bound, where a cut would repeat it.
            for (centre, cut) in [((5., 5.), false), ((10.3, 5.), true), ((5.2, 10.3), true), ((-0.3, -0.2), true)] {
                let mut part = vec![regular(of_exterior, centre, 4.)];
                part.extend((0..holes).map(|k| regular(of_hole, (2.5 + 1.5 * k as f64, centre.1), 0.7)));
                for flags in 0..4 {
                    let label = checked(&call(flags, &part));
                    let expected = if !cut {
                        "unchanged"
                    } else if flags == 3 {
                        "cut"
                    } else {
                        "overlay"
                    };
                    assert_eq!(label, expected, "{coordinates} coordinates, {holes} holes, {centre:?}, flags {flags}");
                }
            }
        }
        if coordinates > 6 {
            // The edges before and behind the one between the two that are swapped cross.
            let swapped = coordinates / 2;
            let mut ring = regular(coordinates, (5., 5.), 4.);
            ring.swap(swapped, swapped + 1);
            let crossing = overlay(8, swapped as u32 - 1, swapped as u32 + 1).code();
            let answers = [0, 1, 2, 3].map(|flags| answered(&call(flags, &[ring.clone()])));
            assert_eq!(answers, [crossing, 2, crossing, 2], "{coordinates}");
        }
    }
}

#[test]
fn a_wrong_expected_answer_is_noticed() {
    let call = lent(3, &[ACROSS_EAST.to_vec(), regular(7, (10., 6.), 1.)], Beside::all(1));
    let right = oracle::slice_call(&call);
    let Ok(SliceAnswer::Cut(rings)) = &right else { panic!("{right:?}") };
    assert_eq!(check_against(&call, 1, &right), Ok("cut"));
    let changed = |change: fn(&mut Vec<CutRing>)| {
        let mut rings = rings.clone();
        change(&mut rings);
        Ok(SliceAnswer::Cut(rings))
    };
    for wrong in [
        Err(19),
        Err(20),
        Err(21),
        Err(22),
        Ok(SliceAnswer::Nothing),
        Ok(SliceAnswer::Dropped),
        Ok(SliceAnswer::Unchanged),
        Ok(overlay(4, 0, 0)),
        changed(|rings| rings.truncate(1)),
        changed(|rings| rings.push(CutRing::default())),
        changed(|rings| rings.swap(0, 1)),
        changed(|rings| rings[0].ring[2].1 = rings[0].ring[2].1.next_up()),
        changed(|rings| rings[1].ring[0].0 = f64::NAN),
        changed(|rings| rings[1] = rings[1].vertices().take(3).collect()),
        changed(|rings| rings[0].origins[1] = 65_535),
        changed(|rings| rings[1].origins[0] += 1),
        changed(|rings| {
            // The same numbers and origins, one coordinate of them in the other ring.
            let moved = (rings[0].ring.pop().unwrap(), rings[0].origins.pop().unwrap());
            rings[1].ring.insert(0, moved.0);
            rings[1].origins.insert(0, moved.1);
        }),
    ] {
        assert!(check_against(&call, 1, &wrong).is_err(), "{wrong:?}");
    }
    // A call refused is held to lent slices that are as they were, and one of another flag to another answer.
    let short = lent(3, &[ACROSS_EAST.to_vec()], Beside { out: -1, ..Beside::default() });
    assert_eq!(check_against(&short, 1, &Err(22)), Ok("22"));
    assert!(check_against(&short, 1, &Err(21)).is_err());
    assert!(check_against(&short, 1, &Ok(SliceAnswer::Nothing)).is_err());
    assert!(check_against(&call, 0, &right).is_err());
}

#[test]
fn a_change_of_any_lent_number_is_noticed() {
    let call = lent(3, &[ACROSS_EAST.to_vec()], Beside::all(2));
    let expected = call.after(&oracle::slice_call(&call));
    let after = slices::answer(&call, 1);
    assert_eq!(after.difference(&expected), None);
    let noticed = |change: &dyn Fn(&mut SliceAfter)| {
        let mut changed = after.clone();
        change(&mut changed);
        changed.difference(&expected).is_some()
    };
    for place in 0..call.scratch.len() {
        assert!(noticed(&|after| after.scratch[place] = -0.0), "scratch, place {place}");
    }
    for place in 0..call.order.len() {
        assert!(noticed(&|after| after.order[place] = 1), "order, place {place}");
    }
    // Another number anywhere, a zero of the other sign, what was lent where a zero belongs, a zero where what was lent belongs.
    let asked = call.out.len() - 2;
    for place in 0..call.out.len() {
        assert!(noticed(&|after| after.out[place] += 1.0), "output, place {place}");
        assert!(noticed(&|after| after.out[place] = -0.0), "output, place {place}");
        assert_eq!(noticed(&|after| after.out[place] = unwritten(place)), place < asked, "output, place {place}");
        assert_eq!(noticed(&|after| after.out[place] = 0.0), !(10..asked).contains(&place), "output, place {place}");
    }
    for place in 0..call.out_lengths.len() {
        assert!(noticed(&|after| after.out_lengths[place] = 0), "lengths, place {place}");
    }
    for place in 0..call.origin_scratch.len() {
        assert!(noticed(&|after| after.origin_scratch[place] = 1), "origin scratch, place {place}");
    }
    let asked = call.out_origins.len() - 2;
    for place in 0..call.out_origins.len() {
        let lent = unwritten_origin(place);
        assert!(noticed(&|after| after.out_origins[place] ^= 1), "origins, place {place}");
        assert_eq!(noticed(&|after| after.out_origins[place] = lent), place < asked, "origins, place {place}");
        // Its first and last origin are 0, which tells nothing of where the answer ends.
        let is_zero = [0, 4].contains(&place) || (5..asked).contains(&place);
        assert_eq!(noticed(&|after| after.out_origins[place] = 0), !is_zero, "origins, place {place}");
    }
}

/// Held to document 01's answer, and that to the Rust's.
fn assert_worked(flags: &[u8], ring: &[Coord], expected: SliceAnswer) {
    for &flags in flags {
        let call = call(flags, &[ring.to_vec()]);
        let checked = check_against(&call, 1, &Ok(expected.clone()));
        assert!(checked.is_ok(), "flags {flags}: {checked:?}");
        assert_eq!(slices::check(&call, 1), checked, "flags {flags}");
    }
}

#[test]
fn worked_polygons() {
    use SliceAnswer::{Cut, Dropped, Nothing, Unchanged};

    assert_worked(EVERY_FLAG, &INSIDE, Unchanged);
    assert_worked(&[3], &ACROSS_EAST, Cut(vec![cut_across_east()]));
    assert_worked(&[0, 1, 2], &ACROSS_EAST, overlay(4, 0, 0));
    assert_worked(&[0], &BOW_TIE, overlay(8, 0, 2));
    assert_worked(&[1], &BOW_TIE, Unchanged);
    assert_worked(EVERY_FLAG, &[(2., 2.), (8., 2.), (2., 2.)], overlay(1, 0, 0));
    assert_worked(EVERY_FLAG, &[(2., 2.), (2., 2.), (8., 2.), (8., 8.), (2., 2.)], overlay(7, 0, 0));
    assert_worked(EVERY_FLAG, &[(2., 2.), (8., 2.), (8., 8.), (2., 2.), (2., 2.)], Unchanged);
    assert_worked(EVERY_FLAG, &[(10., 2.), (20., 2.), (20., 8.), (10., 8.), (10., 2.)], overlay(9, 0, 0));
    assert_worked(EVERY_FLAG, &[(2., 2.), (1e150, 2.), (2., 2.)], Dropped);
    assert_worked(EVERY_FLAG, &[(2., 2.), (9e149, 2.), (2., 2.)], overlay(1, 0, 0));
    assert_worked(EVERY_FLAG, &APART, Nothing);
    for place in 0..2 * APART.len() {
        let mut ring = APART;
        let vertex = &mut ring[place / 2];
        if place % 2 == 0 {
            vertex.0 = f64::NAN;
        } else {
            vertex.1 = f64::NAN;
        }
        assert_worked(EVERY_FLAG, &ring, Dropped);
    }
}

#[test]
fn every_reason_tells_its_positions() {
    for (reason, flags, ring) in exterior_of_each_reason() {
        assert_worked(flags, &ring, SliceAnswer::Overlay(reason));
    }
}

/// Only the cut of a long ring has corners and edges with such numbers.
#[test]
fn positions_over_65_535_are_told() {
    let (repeat, ring) = late_repeat();
    assert_worked(&[1, 3], &ring, SliceAnswer::Overlay(repeat));
    let (crossing, ring) = late_crossing();
    assert_worked(&[0, 2], &ring, SliceAnswer::Overlay(crossing));
}

/// A cut ring is closed by the cutter, and once more as the polygon holds it: that shows where its first coordinate holds a
/// NaN. Both closing vertices have the first's origin. So with holes.
#[test]
fn overflowing_differences_close_twice() {
    let (ring, cut) = (OVERFLOWING.to_vec(), overflowing_cut());
    assert_worked(&[3], &ring, SliceAnswer::Cut(vec![cut.clone()]));
    let with_holes = call(3, &[ACROSS_EAST.to_vec(), ring.clone(), ring]);
    let expected = Ok(SliceAnswer::Cut(vec![cut_across_east(), cut.clone(), cut]));
    assert_eq!(check_against(&with_holes, 1, &expected), Ok("cut"));
    assert_eq!(checked(&with_holes), "cut");
}

/// Twice the area of a triangle, by its sign: exact where every number is whole once it is taken times `scale`.
fn exact_side(scale: f64, [a, b, c]: [Coord; 3]) -> i128 {
    let whole = |number: f64| {
        let scaled = number * scale;
        assert!(
            scaled.fract() == 0.0 && scaled.abs() < 2f64.powi(60),
            "{number} is not whole, or the product too long"
        );
        scaled as i128
    };
    let [(ax, ay), (bx, by), (cx, cy)] = [a, b, c].map(|(x, y)| (whole(x), whole(y)));
    ((bx - ax) * (cy - ay) - (by - ay) * (cx - ax)).signum()
}

/// The rounded test takes the first and the third edge for crossing, though the third lies on one side of the first. The decimals and the
/// ring with a number above 256 are off the grid of document 02's point 5 and keep the rounded test; the degrees are on it, and share no
/// point.
#[test]
fn edges_that_cross_by_rounding_alone_on_the_grid_and_off() {
    let decimals = [(0.1, 0.3), (0.6, 0.8), (0.4, 0.6), (0.3, 0.5), (0.1, 0.3)];
    let degrees = [
        (-31.568978182155334, -73.81603924119962),
        (52.72819713971501, 55.28700857600569),
        (34.43620047468073, 27.27239822754495),
        (30.842900723745238, 21.76917765348354),
        (-31.568978182155334, -73.81603924119962),
    ];
    let above = [(257.4, 9.0), (0.0, 0.0), (57.2, 2.0), (85.8, 3.0), (257.4, 9.0)];
    let crossing = overlay(8, 0, 2).code();
    let rings = [(decimals, 2f64.powi(56), crossing), (above, 2f64.powi(47), crossing), (degrees, 2f64.powi(50), 2)];
    for (ring, scale, code) in rings {
        let [a, b, c, d, _] = ring;
        let side = |point: Coord| exact_side(scale, [a, b, point]);
        assert_eq!(side(c), side(d), "the third edge is on one side of the first");
        assert_ne!(side(c), 0);
        let answers = answers_in([-300.0, -300.0, 300.0, 300.0], &ring.to_vec());
        assert_eq!(answers, [code, 2, code, 2], "{ring:?}");
    }
}

/// Rings that geo's own orientations would turn down, as products of numbers so small or so large underflow or overflow in them, though
/// the first and the third edge do share a point. An overlay of the second is dropped, as its numbers are too large for one.
#[test]
fn edges_of_tiny_and_of_huge_numbers_keep_the_rounded_test() {
    let tiny = vec![(-0.4, 0.0), (0.4, 0.0), (-0.1, -5e-324), (0.1, 5e-324), (-0.4, 0.0)];
    let crossing = overlay(8, 0, 2).code();
    assert_eq!(answers_in([-100.0, -100.0, 100.0, 100.0], &tiny), [crossing, 2, crossing, 2]);
    let huge = vec![(-1e155, 0.0), (1e155, 0.0), (0.0, 1e155), (0.0, -1e155), (-1e155, 0.0)];
    let dropped = SliceAnswer::Dropped.code();
    assert_eq!(answers_in([-1e156, -1e156, 1e156, 1e156], &huge), [dropped, 2, dropped, 2]);
}

/// What a call on the ring alone in these bounds is answered with flags 0 to 3, held to the Rust each time.
fn answers_in(bounds: Bounds, ring: &Ring) -> [i64; 4] {
    [0, 1, 2, 3].map(|flags| answered(&SliceCall { bounds, ..call(flags, std::slice::from_ref(ring)) }))
}

#[test]
fn shallow_pairs_cross_only_where_they_share_a_point() {
    let code = |reason: Option<Reason>| reason.map_or(SliceAnswer::Unchanged, SliceAnswer::Overlay).code();
    for shallow in SHALLOW {
        for vertices in [0, 1, 14, 15, 30, 2_000] {
            let told = code(shallow.reason(vertices));
            let answers = answers_in(WIDE, &shallow.ring(vertices));
            assert_eq!(answers, [told, 2, told, 2], "{}, {vertices} vertices", shallow.name);
        }
    }
    for (ring, on_grid) in shallow_by_number() {
        let told = if on_grid { 2 } else { overlay(8, 0, 2).code() };
        assert_eq!(answers_in(WIDE, &ring), [told, 2, told, 2], "{ring:?}");
    }
    let (reason, ring) = shallow_before_crossing();
    assert_eq!(answers_in(WIDE, &ring), [code(Some(reason)), 2, code(Some(reason)), 2]);
}

/// By the rounded test alone it had reason 10 where edges are looked at.
#[test]
fn a_cut_with_a_shallow_pair_is_cut() {
    let (bounds, ring) = shallow_when_cut();
    assert_eq!(answers_in(bounds, &ring), [4 + 65_536; 4]);
}
