//! The ring call of the port against the Rust, the share that every test run takes: random calls, the lengths at the
//! limits with room exact, one short and longer, rings worked by hand, and one whose cut really overruns.

use compare::worked::{self, ring_of_each_origin, unwritten, unwritten_origin, Beside};
use formats::calls::{RingCall, MOST_COORDINATES};
use formats::origins::CutRing;
use formats::{flat, pairs, same_numbers};
use generator::Style;
use port::calls::lent_to_ring;
use port::{probe, rings};

#[test]
fn ring_calls_agree() {
    rings::compare(1, 15_000).assert_agreed(11 * 15_000);
}

/// A call on a zigzag of so many numbers, its slices so much longer or shorter than they have to be.
fn zigzag(numbers: usize, beside: Beside) -> RingCall {
    let ring: Vec<f64> = (0..numbers).map(|k| (k % 7) as f64 * 3.0 - 4.0).collect();
    RingCall { ring: ring.clone(), ..worked::ring_call(&pairs(&ring), beside) }
}

#[test]
fn limits_agree_from_both_sides() {
    let exact = Beside::default();
    let besides = [
        exact,
        Beside { scratch: -1, ..exact },
        Beside { origin_scratch: -1, ..exact },
        Beside { out: -1, ..exact },
        Beside { out_origins: -1, ..exact },
        Beside::all(-1),
        Beside { scratch: -1, out: 500, ..exact },
        Beside { origin_scratch: -1, ..Beside::all(500) },
        Beside { out: -1, scratch: 500, ..exact },
        Beside { out_origins: -1, ..Beside::all(500) },
        Beside::all(1),
        Beside { out: 500, out_origins: 1, ..exact },
    ];
    for coordinates in [0, 1, 2, 3, 4, 5, 33, MOST_COORDINATES - 1, MOST_COORDINATES, MOST_COORDINATES + 1, 65_536] {
        for beside in besides {
            for numbers in [2 * coordinates, 2 * coordinates + 1] {
                let label = rings::check(&zigzag(numbers, beside));
                assert!(label.is_ok(), "{coordinates} coordinates, beside {beside:?}: {label:?}");
            }
        }
    }
    assert_eq!(rings::check(&zigzag(2 * MOST_COORDINATES, exact)), Ok("ring"));
    assert_eq!(rings::check(&zigzag(2 * MOST_COORDINATES + 2, exact)), Ok("20"));
    for longer in [0, 1, 500].map(Beside::all) {
        assert_eq!(rings::check(&zigzag(8, longer)), Ok("ring"));
        assert_eq!(rings::check(&zigzag(8, Beside { scratch: -1, ..longer })), Ok("21"));
        assert_eq!(rings::check(&zigzag(8, Beside { origin_scratch: -1, ..longer })), Ok("21"));
        assert_eq!(rings::check(&zigzag(8, Beside { out: -1, ..longer })), Ok("22"));
        assert_eq!(rings::check(&zigzag(8, Beside { out_origins: -1, ..longer })), Ok("22"));
        assert_eq!(rings::check(&zigzag(9, longer)), Ok("19"));
    }
    assert_eq!(rings::check(&zigzag(8, Beside::all(-1))), Ok("21"));
    assert_eq!(rings::check(&zigzag(9, Beside::all(-1))), Ok("19"));
}

/// The highest position is 65,531, the number below that of Left: all of a ring that lies inside, closed by its first.
#[test]
fn the_highest_position_is_told() {
    let ring = worked::unclosed(worked::regular(MOST_COORDINATES + 1, (5., 5.), 4.));
    let call = worked::ring_call(&ring, Beside::default());
    let after = rings::answer(&call);
    assert_eq!(after.answer, MOST_COORDINATES as i64 + 1);
    let positions = (0..MOST_COORDINATES).map(|k| k as u16).chain([0]);
    assert!(after.out_origins[..MOST_COORDINATES + 1].iter().copied().eq(positions));
    assert_eq!(rings::check(&call), Ok("ring"));
}

/// Said by hand.
#[test]
fn worked_rings_have_their_origins() {
    for (ring, origins) in ring_of_each_origin() {
        let call = worked::ring_call(&ring, Beside::all(1));
        let after = rings::answer(&call);
        assert_eq!(after.out_origins[..after.answer as usize], origins, "{ring:?}");
        assert_eq!(rings::check(&call), Ok("ring"), "{ring:?}");
    }
}

/// Said once more without `formats`: what a call leaves in slices that are longer than needed, where the ring is cut to none too.
#[test]
fn a_success_leaves_zeros_behind_the_ring_as_far_as_22_asks() {
    for (count, ring) in worked::ring_of_each_answer() {
        for spare in [0, 1, 2, 3, 500] {
            let call = worked::ring_call(&ring, Beside::all(spare));
            let (after, asked) = (rings::answer(&call), call.out.len() - spare as usize);
            assert_eq!(after.answer, count as i64, "{ring:?}");
            assert!(after.scratch.iter().all(|number| number.to_bits() == 0), "{ring:?}");
            assert!((0..2 * count).all(|place| after.out[place] != unwritten(place)), "{ring:?}");
            assert!(after.out[2 * count..asked].iter().all(|number| number.to_bits() == 0), "{ring:?}");
            assert!((asked..after.out.len()).all(|place| after.out[place] == unwritten(place)), "{ring:?}");
            let (origins, asked) = (&after.out_origins, asked / 2);
            assert!(after.origin_scratch.iter().all(|&origin| origin == 0), "{ring:?}");
            assert!((0..count).all(|place| origins[place] != unwritten_origin(place)), "{ring:?}");
            assert!(origins[count..asked].iter().all(|&origin| origin == 0), "{ring:?}");
            assert!((asked..origins.len()).all(|place| origins[place] == unwritten_origin(place)), "{ring:?}");
            assert_eq!(rings::check(&call), Ok(if count == 0 { "empty" } else { "ring" }));
        }
    }
}

/// Of document 02's point 4: on one vertex an output of seven numbers gets six zeros, and the seventh stays; so of four origins the
/// fourth.
#[test]
fn a_ring_call_that_leaves_no_vertex_writes_zeros() {
    let call = worked::one_vertex();
    let after = rings::answer(&call);
    assert_eq!((after.answer, after.out.len()), (0, 7));
    assert!(after.out[..6].iter().chain(&after.scratch).all(|number| number.to_bits() == 0), "{after:?}");
    assert_eq!(after.out[6], call.out[6]);
    assert_eq!(after.out_origins, [0, 0, 0, call.out_origins[3]]);
    assert_eq!(after.origin_scratch, [0; 3]);
    assert_eq!(rings::check(&call), Ok("empty"));
}

#[test]
fn a_change_of_any_lent_number_is_noticed() {
    let call = worked::ring_call(&worked::ACROSS_EAST, Beside::all(2));
    let right = oracle::ring_call(&call);
    let (after, expected) = (rings::answer(&call), call.after(&right));
    assert_eq!(after.difference(&expected), None);
    for place in 0..call.out.len() {
        for number in [-0.0, unwritten(place), unwritten(place + 1), f64::NAN] {
            let mut changed = after.clone();
            changed.out[place] = number;
            let same = number.to_bits() == after.out[place].to_bits();
            assert_eq!(changed.difference(&expected).is_none(), same, "output, place {place}");
        }
    }
    for place in 0..call.scratch.len() {
        let mut changed = after.clone();
        changed.scratch[place] = -0.0;
        assert!(changed.difference(&expected).is_some(), "scratch, place {place}");
    }
    for place in 0..call.out_origins.len() {
        for origin in [0, 1, 65_533, unwritten_origin(place), unwritten_origin(place + 1)] {
            let mut changed = after.clone();
            changed.out_origins[place] = origin;
            let same = origin == after.out_origins[place];
            assert_eq!(changed.difference(&expected).is_none(), same, "origins, place {place}");
        }
    }
    for place in 0..call.origin_scratch.len() {
        let mut changed = after.clone();
        changed.origin_scratch[place] = 1;
        assert!(changed.difference(&expected).is_some(), "origin scratch, place {place}");
    }
    let right = right.unwrap();
    let short = right.vertices().take(4).collect();
    let other_origin = CutRing { origins: vec![0, 65_533, 65_533, 3, 4], ..right };
    for wrong in [Err(21), Err(22), Ok(CutRing::default()), Ok(short), Ok(other_origin)] {
        assert!(rings::check_against(&call, &wrong).is_err(), "{wrong:?}");
    }
}

/// Without the clearing: the ring at the front of the output is the same.
#[test]
fn the_cutter_by_itself_gives_the_same_ring() {
    for style in Style::ALL {
        for index in 0..2_000 {
            let call = generator::ring_call(style, 1, index);
            if let Ok(cut) = oracle::ring_call(&call) {
                let mut after = call.after(&Err(0));
                let count = probe::clip_ring(&call.ring, &call.bounds, lent_to_ring(&mut after));
                assert_eq!(count, cut.ring.len(), "{style:?}, index {index}");
                assert!(same_numbers(&after.out[..2 * count], &flat(&cut.ring)), "{style:?}, index {index}");
                assert_eq!(after.out_origins[..count], cut.origins, "{style:?}, index {index}");
            }
        }
    }
}

/// The cut at the bottom computes a longitude 1/2^45 east of east: 2^1029 in units of the smallest double.
#[test]
fn a_longitude_overruns() {
    let east = 3.0 / (1u64 << 45) as f64;
    let bounds = [-256.0, 0.0, east, 10.0];
    let ring = [-256.0, 1.0, east, -1.0 / (1u64 << 60) as f64, -256.0, 5.0];
    let call = RingCall { bounds, ..worked::ring_call(&pairs(&ring), Beside::default()) };
    let after = rings::answer(&call);
    let cut = &after.out[..2 * after.answer as usize];
    let overrun = cut.chunks(2).map(|vertex| vertex[0] - east).fold(f64::MIN, f64::max);
    assert_eq!(overrun, 1.0 / (1u64 << 45) as f64);
    assert_eq!(rings::check(&call), Ok("ring"));
}
