//! The mending call of the port against the second reading and the judge, the share that every test run takes; rings worked by hand, at the
//! limits from both sides, with room exact, one short and longer; and answers that are not as they must be, each of which is noticed.

use compare::worked::unwritten;
use compare::worked_mends::{
    call, pattern, worked, Worked, BEGINS_WITH_NAN, CLOSED_BY_OTHER_ZERO, CREEPING, CREEPING_MENDED, SQUARE, TRIANGLE,
    TRIANGLE_WITH_REPEAT,
};
use formats::calls::MOST_COORDINATES;
use formats::mends::{MendAfter, MendCall};
use formats::{flat, same_number, Coord};
use generator::MendKind;
use port::mends::{self, again, answer, check, check_given, given, Given};
use ringcut::raw;

#[test]
fn mended_rings_agree() {
    mends::compare(1, 20_000).assert_agreed(MendKind::ALL.len() as u64 * 20_000);
}

/// What the port keeps of a ring that is lent with an output of the length asked for.
fn mended(ring: &[Coord]) -> Vec<f64> {
    let after = answer(&call(ring, 0));
    after.mended().unwrap_or_else(|| panic!("{ring:?} is answered {}", after.answer)).to_vec()
}

/// Said by hand, each of them a ring that tells a deliberate mistake.
#[test]
fn worked_rings_are_mended_as_they_are_by_hand() {
    for Worked { mistake, call, right } in worked() {
        let difference = answer(&call).difference(&call.after(&right));
        assert_eq!(difference, None, "{mistake:?}, {call}");
        assert!(check(&call).is_ok(), "{mistake:?}, {call}");
    }
}

#[test]
fn rings_of_hardly_any_numbers_are_refused() {
    let given = |ring: &[f64], room: usize| {
        let call = MendCall { ring: ring.to_vec(), out: (0..room).map(unwritten).collect() };
        let after = answer(&call);
        assert_eq!(after.out, call.out, "{call}");
        assert!(check(&call).is_ok(), "{call}");
        after.answer
    };
    for room in 0..10 {
        let if_room_for = |numbers: usize| if room < numbers { -22 } else { -26 };
        assert_eq!(given(&[], room), -26);
        assert_eq!(given(&[1.0], room), -19);
        assert_eq!(given(&[1.0, 2.0], room), if_room_for(2));
        assert_eq!(given(&[f64::NAN, 2.0], room), if_room_for(4));
        assert_eq!(given(&[1.0, f64::NAN], room), if_room_for(4));
        assert_eq!(given(&[1.0, 2.0, 3.0], room), -19);
        assert_eq!(given(&[1.0, 2.0, 1.0, 2.0], room), if_room_for(4));
        assert_eq!(given(&[1.0, 2.0, 3.0, 2.0], room), if_room_for(6));
    }
}

/// Two corners and the closing one are too few, whatever was repeated; three are enough.
#[test]
fn three_that_remain_are_refused_and_four_are_not() {
    let (a, b, c) = ((2., 2.), (8., 2.), (8., 8.));
    let near = |(x, y): Coord| (x + 9e-11, y - 9e-11);
    for ring in [
        vec![a, b],
        vec![a, b, a],
        vec![a, a, b, b, a],
        vec![a, near(a), near(a), b, near(b), b],
        vec![a, b, near(b), b, near(b), a],
        vec![a, a, a, a, a],
    ] {
        for longer in [0, 1, 500] {
            let call = call(&ring, longer);
            let after = answer(&call);
            assert_eq!((after.answer, &after.out), (-26, &call.out), "{ring:?}");
            assert_eq!(check(&call), Ok("26"), "{ring:?}");
        }
    }
    for (ring, remain) in [
        (vec![a, b, c], vec![a, b, c, a]),
        (vec![a, b, a, a], vec![a, b, a, a]),
        (vec![a, near(a), b, near(b), c, near(c), a], vec![a, b, c, a]),
        (vec![a, a, b, a, near(a)], vec![a, b, a, a]),
    ] {
        assert_eq!(mended(&ring), flat(&remain), "{ring:?}");
        assert!(check(&call(&ring, 0)).is_ok(), "{ring:?}");
    }
}

/// The output is measured by the closed ring, whether it was lent closed or open, and however many are kept.
#[test]
fn room_is_exact_one_short_and_longer() {
    let open_repeats = [(2., 2.), (8., 2.), (8., 2.), (8., 2.), (8., 8.), (8., 8.)];
    for (ring, closed, kept) in [
        (&SQUARE[..], 5, &SQUARE[..]),
        (&SQUARE[..4], 5, &SQUARE[..]),
        (&TRIANGLE_WITH_REPEAT[..], 5, &TRIANGLE[..]),
        (&open_repeats[..], 7, &TRIANGLE[..]),
    ] {
        for room in 0..2 * closed {
            let call = MendCall { ring: flat(ring), out: (0..room).map(unwritten).collect() };
            let after = answer(&call);
            assert_eq!((after.answer, &after.out), (-22, &call.out), "{ring:?}, {room} numbers");
            assert_eq!(check(&call), Ok("22"));
        }
        for longer in [0, 1, 2, 3, 500] {
            let call = call(ring, longer);
            let after = answer(&call);
            assert_eq!(call.out.len(), 2 * closed + longer as usize);
            assert_eq!(after.answer, kept.len() as i64, "{ring:?}");
            assert_eq!(after.out[..2 * kept.len()], flat(kept), "{ring:?}");
            let stays = |place: usize| after.out[place] == unwritten(place);
            assert!((2 * kept.len()..call.out.len()).all(stays), "{ring:?}, {longer} more");
            assert!(check(&call).is_ok());
        }
    }
}

/// Numbers before and behind the slice that is lent, in one piece of memory with it.
#[test]
fn nothing_is_written_outside_the_output() {
    for ring in
        [&SQUARE[..], &SQUARE[..4], &TRIANGLE_WITH_REPEAT[..], &CREEPING[..], &TRIANGLE[..2], &BEGINS_WITH_NAN[..]]
    {
        let room = call(ring, 0).out.len();
        for room in [room - 1, room, room + 1] {
            let mut memory: Vec<f64> = (0..room + 8).map(unwritten).collect();
            raw::mend(&flat(ring), &mut memory[4..4 + room]);
            let stays = |place: usize| memory[place] == unwritten(place);
            assert!((0..4).chain(4 + room..room + 8).all(stays), "{ring:?}, {room} numbers");
        }
    }
}

/// 65,532 coordinates, the closing one counted, and one more.
#[test]
fn the_most_coordinates_are_counted_closed() {
    let with_nan_first = |mut ring: Vec<Coord>| {
        ring[0].1 = f64::NAN;
        ring
    };
    for (ring, label) in [
        (pattern(MOST_COORDINATES - 1, true), "none dropped"),
        (pattern(MOST_COORDINATES - 1, false), "none dropped"),
        (pattern(MOST_COORDINATES, true), "none dropped"),
        (pattern(MOST_COORDINATES, false), "20"),
        (pattern(MOST_COORDINATES + 1, true), "20"),
        (with_nan_first(pattern(MOST_COORDINATES - 2, true)), "none dropped"),
        (with_nan_first(pattern(MOST_COORDINATES - 1, true)), "none dropped"),
        (with_nan_first(pattern(MOST_COORDINATES, true)), "20"),
        (vec![(1., 1.); MOST_COORDINATES], "26"),
        (vec![(1., 1.); MOST_COORDINATES + 1], "20"),
        (vec![(1., 1.); 65_536], "20"),
        (vec![(1., 1.); 65_537], "20"),
    ] {
        let (coordinates, is_over) = (ring.len(), label == "20");
        assert_eq!(check(&call(&ring, 0)), Ok(label), "{coordinates} coordinates");
        assert_eq!(check(&call(&ring, 1)), Ok(label), "{coordinates} coordinates");
        assert_eq!(check(&call(&ring, -1)), Ok(if is_over { "20" } else { "22" }), "{coordinates} coordinates");
        let odd = MendCall { ring: [flat(&ring), vec![1.]].concat(), ..call(&ring, 0) };
        assert_eq!(check(&odd), Ok("19"), "{coordinates} coordinates");
    }
}

/// Lent with 65,531 coordinates and a NaN in the first it is mended to 65,532, and then it is one too many.
#[test]
fn a_ring_that_begins_with_a_nan_grows_up_to_the_limit() {
    for is_closed in [true, false] {
        let mut ring = pattern(MOST_COORDINATES - 1, is_closed);
        ring[0].0 = f64::NAN;
        let call = call(&ring, 0);
        let Given { after, again } = given(&call);
        assert_eq!(after.answer, MOST_COORDINATES as i64);
        let again = again.expect("it was mended");
        assert_eq!(again.answer, -20);
        assert!(again.out.iter().all(|&number| number == 0.5));
        assert_eq!(check(&call), Ok("none dropped"));
    }
    let mut numbers = flat(&BEGINS_WITH_NAN);
    for coordinates in 5..10 {
        numbers = again(&numbers).mended().expect("it is not refused").to_vec();
        assert_eq!(numbers.len(), 2 * coordinates);
    }
}

/// A ring that is closed as floats compare keeps its own closing coordinate, and no other is appended.
#[test]
fn the_closing_one_keeps_its_signs_of_zero() {
    let bits = |numbers: &[f64]| -> Vec<u64> { numbers.iter().map(|number| number.to_bits()).collect() };
    let between = &CLOSED_BY_OTHER_ZERO[1..3];
    let zeros = [(0.0, 0.0), (-0.0, 0.0), (0.0, -0.0), (-0.0, -0.0)];
    for first in zeros {
        for closing in zeros {
            let ring = [&[first], between, &[closing]].concat();
            assert_eq!(bits(&mended(&ring)), bits(&flat(&ring)));
            assert_eq!(check(&call(&ring, 0)), Ok("none dropped"));
        }
        let open = [&[first], between].concat();
        assert_eq!(bits(&mended(&open)), bits(&flat(&[&open[..], &[first]].concat())));
    }
}

/// Steps of 1/2^36 to 1/2^33, which are added up without rounding, in x, in y and in both. What counts is the last kept: 1e-10 is
/// 6.87 times the least of them, so that each seventh is kept.
#[test]
fn creeping_rings_keep_each_that_is_far_from_the_last_kept() {
    assert_eq!(mended(&CREEPING), flat(&CREEPING_MENDED));
    for (power, every) in [(36, 7), (35, 4), (34, 2), (33, 1)] {
        for (along, across) in [(1., 0.), (0., -1.), (1., 1.), (-1., 0.5)] {
            let at = |k: usize| {
                let way = k as f64 / (1u64 << power) as f64;
                (1. + along * way, 2. + across * way)
            };
            let creeping: Vec<Coord> = (0..60).map(at).collect();
            let corners = [(5., 0.), (5., 5.)];
            let kept: Vec<Coord> = creeping.iter().copied().step_by(every).collect();
            let ring = [&creeping[..], &corners].concat();
            let right = [&kept[..], &corners, &creeping[..1]].concat();
            assert_eq!(mended(&ring), flat(&right), "1/2^{power} times {along}, {across}");
            assert_eq!(check(&call(&ring, 0)), Ok(if every == 1 { "none dropped" } else { "some dropped" }));
        }
    }
}

/// Under 1e-10 in both axes, to the last digit.
#[test]
fn near_is_under_1e_10_in_both_axes() {
    let (below, above) = (1e-10_f64.next_down(), 1e-10_f64.next_up());
    for (second, is_dropped) in [
        ((below, 0.), true),
        ((below, below), true),
        ((-below, below), true),
        ((1e-10, 0.), false),
        ((0., -1e-10), false),
        ((above, below), false),
        ((below, 1e-10), false),
        ((0., 3.), false),
        ((3., 0.), false),
        ((f64::NAN, 0.), false),
        ((0., f64::INFINITY), false),
        ((5e-324, -5e-324), true),
    ] {
        let ring = [(0., 0.), second, (5., 0.), (5., 5.), (0., 0.)];
        assert_eq!(mended(&ring).len() / 2, if is_dropped { 4 } else { 5 }, "{second:?}");
        assert!(check(&call(&ring, 0)).is_ok(), "{second:?}");
    }
}

/// One number of what is given changed, however little, or another answer. The reading tells it, and where a NaN that stands past the
/// answer has other bits, of which the reading says nothing, the judge.
#[test]
fn differences_are_noticed() {
    let rings = [&SQUARE[..], &TRIANGLE_WITH_REPEAT[..], &CREEPING[..], &BEGINS_WITH_NAN[..], &TRIANGLE[..2]];
    for ring in rings {
        let call = MendCall { out: (0x7ff4_dead_beef_0001..).map(f64::from_bits).take(18).collect(), ring: flat(ring) };
        let right = given(&call);
        assert!(check_given(&call, &right).is_ok(), "{call}");
        let noticed = |after: MendAfter| check_given(&call, &Given { after, ..right.clone() }).err();
        let (out, written) = (&right.after.out, right.after.mended().map_or(0, <[f64]>::len));
        for (place, &stands) in out.iter().enumerate() {
            for number in [0.5, -stands, stands.next_up(), f64::NAN] {
                let mut wrong = right.after.clone();
                wrong.out[place] = number;
                let told_by = match noticed(wrong) {
                    None => "nobody",
                    Some(said) if said.contains(&format!("port and reading differ in output, value {place}: ")) => {
                        "reading"
                    }
                    Some(said) if said.ends_with("written past the answer") => "judge",
                    Some(said) if said.ends_with("a refusal has written") => "judge",
                    Some(said) => panic!("{said}"),
                };
                let told_rightly_by = if !same_number(number, stands) {
                    "reading"
                } else if place < written || number.to_bits() == stands.to_bits() {
                    "nobody"
                } else {
                    "judge"
                };
                assert_eq!(told_by, told_rightly_by, "{call}, place {place}, {number:?}");
            }
        }
        for answer in [-26, -22, -20, -19, 0, 3, 4, 5, 6, 9, 10, i64::MIN, i64::MAX] {
            let said = noticed(MendAfter { answer, ..right.after.clone() });
            let is_said = said.is_some_and(|said| said.contains("port and reading differ in answer"));
            assert_eq!(is_said, answer != right.after.answer, "{call}, {answer}");
        }
    }
}

#[test]
fn a_ring_that_is_changed_by_mending_again_is_noticed() {
    for ring in [&SQUARE[..], &TRIANGLE_WITH_REPEAT[..], &BEGINS_WITH_NAN[..]] {
        let call = call(ring, 0);
        let right = given(&call);
        assert!(check_given(&call, &right).is_ok());
        let noticed = |again: Option<MendAfter>| {
            let said = check_given(&call, &Given { again, ..right.clone() }).expect_err("it is noticed");
            said[said.rfind(": ").expect("the call comes first") + 2..].to_string()
        };
        assert_eq!(noticed(None), "not mended again");
        let again = right.again.clone().expect("it was mended");
        for answer in [-26, -20, again.answer - 1, again.answer + 1] {
            let wrong = MendAfter { answer, ..again.clone() };
            assert_eq!(noticed(Some(wrong)), "mended again, another count is answered", "{answer}");
        }
        for place in 0..2 * again.answer as usize {
            let mut wrong = again.clone();
            wrong.out[place] = 0.5;
            assert_eq!(noticed(Some(wrong)), "mended again, it is another ring", "place {place}");
        }
    }
}
