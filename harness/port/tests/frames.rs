//! The frame entry of the port against the Rust, the share that every test run takes: random and damaged frames, and rings of
//! every length that a frame can hold, as its length picks the working arrays.

use compare::shallow::{shallow_when_cut, SHALLOW, WIDE};
use compare::worked::{exterior_of_each_reason, overflowing_cut, BOUNDS, OVERFLOWING};
use formats::answer::{Answer, Listed, ListedPart};
use formats::frame::{Frame, MULTIPOLYGON, POLYGON};
use formats::Ring;
use generator::Specimen;
use port::frames;

/// The most coordinates of a frame's one ring.
const MOST: usize = 317;

#[test]
fn frames_agree() {
    frames::compare(1, 15_000).assert_agreed(14 * 15_000);
}

/// In and out at every vertex, over all four bounds; not closed.
fn zigzag(coordinates: usize) -> Ring {
    let vertex = |k: usize| {
        let angle = std::f64::consts::TAU * k as f64 / coordinates as f64;
        let distance = if k.is_multiple_of(2) { 3.0 } else { 9.0 };
        (5.0 + distance * angle.cos(), 5.0 + distance * angle.sin())
    };
    (0..coordinates).map(vertex).collect()
}

fn specimen(kind: u8, flags: u8, ring: Ring) -> Specimen {
    let frame = Frame { kind, flags, bounds: BOUNDS, buffer: 0.0, parts: vec![vec![ring]] };
    Specimen { frame: frame.encode(), room: frame.room() }
}

/// A ring alone, left open or closed. A zigzag of three vertices or more is cut.
#[test]
fn every_length_of_a_ring_agrees() {
    for coordinates in 0..=MOST {
        for kind in [POLYGON, MULTIPOLYGON] {
            for flags in 0..4 {
                let mut ring = zigzag(coordinates);
                let open = frames::check(&specimen(kind, flags, ring.clone()));
                if let Some(last) = ring.len().checked_sub(1) {
                    ring[last] = ring[0];
                }
                let closed = frames::check(&specimen(kind, flags, ring));
                assert!(open.is_ok() && closed.is_ok(), "{coordinates} coordinates: {open:?}, {closed:?}");
            }
        }
    }
    assert_eq!(frames::check(&specimen(POLYGON, 3, zigzag(MOST))), Ok("cut"));
    assert_eq!(frames::check(&specimen(POLYGON, 3, zigzag(MOST + 1))), Ok("11"));
}

/// Worked by hand, each with exactly the room that it asks for.
#[test]
fn every_reason_tells_its_positions() {
    for (reason, flags, ring) in exterior_of_each_reason() {
        let parts = vec![ListedPart { index: 0, listed: Listed::Overlay(reason) }];
        let answer = Ok(Answer::Listed { guard_count: 0, parts }.encode());
        for &flags in flags {
            let Specimen { frame, room } = specimen(POLYGON, flags, ring.clone());
            assert_eq!(frames::check_in(&frame, room, &answer), Ok(()), "flags {flags}, {ring:?}");
        }
    }
}

/// Of document 02's point 5: the input's check, and that of the cut.
#[test]
fn shallow_pairs_cross_only_where_they_share_a_point() {
    let specimen = |flags, bounds, ring| {
        let frame = Frame { kind: POLYGON, flags, bounds, buffer: 0.0, parts: vec![vec![ring]] };
        Specimen { frame: frame.encode(), room: frame.room() }
    };
    for shallow in SHALLOW {
        for vertices in [0, 1, 14, 15, 30] {
            let answer = match shallow.reason(vertices) {
                None => Answer::Unchanged,
                Some(reason) => {
                    let parts = vec![ListedPart { index: 0, listed: Listed::Overlay(reason) }];
                    Answer::Listed { guard_count: 0, parts }
                }
            };
            for flags in [0, 2] {
                let Specimen { frame, room } = specimen(flags, WIDE, shallow.ring(vertices));
                assert_eq!(frames::check_in(&frame, room, &Ok(answer.encode())), Ok(()), "{}", shallow.name);
            }
            assert_eq!(frames::check(&specimen(1, WIDE, shallow.ring(vertices))), Ok("unchanged"), "{}", shallow.name);
        }
    }
    let (bounds, ring) = shallow_when_cut();
    for flags in 0..4 {
        assert_eq!(frames::check(&specimen(flags, bounds, ring.clone())), Ok("cut"), "flags {flags}");
    }
}

/// Of document 02's point 12: both closing vertices have the first's origin.
#[test]
fn a_cut_that_closes_twice_has_its_firsts_origin() {
    let Specimen { frame, room } = specimen(POLYGON, 3, OVERFLOWING.to_vec());
    let parts = vec![ListedPart { index: 0, listed: Listed::Cut(vec![overflowing_cut()]) }];
    let answer = Ok(Answer::Listed { guard_count: 0, parts }.encode());
    assert_eq!(frames::check_in(&frame, room, &answer), Ok(()));
}

/// An answer, a refusal and a byte of the output that are not the port's are each noticed.
#[test]
fn differences_are_noticed() {
    let Specimen { frame, room } = specimen(POLYGON, 3, zigzag(16));
    let answer = oracle::answer(&frame, room).unwrap();
    assert_eq!(frames::check_in(&frame, room, &Ok(answer.clone())), Ok(()));
    assert_eq!(frames::check_in(&frame, room - 1, &Err(22)), Ok(()));
    for place in 0..answer.len() {
        let mut other = answer.clone();
        other[place] ^= 1;
        let difference = frames::check_in(&frame, room, &Ok(other)).unwrap_err();
        assert!(difference.ends_with(&format!("first other byte of the output Some({place})")), "{difference}");
    }
    assert!(frames::check_in(&frame, room, &Ok(answer[..answer.len() - 1].to_vec())).is_err());
    assert!(frames::check_in(&frame, room, &Err(22)).is_err());
    assert!(frames::check_in(&frame, room - 1, &Err(21)).is_err());
    assert!(frames::check_in(&frame, room - 1, &Ok(answer)).is_err());
}
