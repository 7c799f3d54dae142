//! Document 01's worked cases on bounds 0, 0, 10, 10 with buffer 0, against the Rust and the second reading; and of document 02's
//! point 4 the two inputs that tell its readings apart. Coordinates of cuts have the origins of point 12.

use compare::calls::{ring_call, slice_call};
use compare::worked::{self, unwritten, unwritten_origin, Beside, BOTTOM, LEFT, RIGHT};
use formats::answer::{Answer, Listed, ListedPart};
use formats::frame::{Frame, MULTIPOLYGON, POLYGON};
use formats::reason::merged;
use formats::{flat, same_numbers, Coord};
use reading::Reading;

const ROOM: usize = 60_000;

const NOTHING: &[u8] = &[0, 0, 0, 0, 0];
const DROPPED: &[u8] = &[1, 1, 0, 0, 0];
const UNCHANGED: &[u8] = &[2, 0, 0, 0, 0];

/// The one listed part is part 0, an overlay that tells these positions.
fn overlay(reason: u8, first: u8, second: u8) -> [u8; 13] {
    [3, 0, 0, 1, 0, 0, 0, 5, reason, first, 0, second, 0]
}

/// The one listed part is part 0, cut to this ring, whose vertices have these origins.
fn cut(ring: &[Coord], origins: &[u16]) -> Vec<u8> {
    assert_eq!(ring.len(), origins.len());
    let mut bytes = vec![3, 0, 0, 1, 0, 0, 0, 4, 0, 1, 0];
    bytes.extend((ring.len() as u16).to_le_bytes());
    for ((x, y), origin) in ring.iter().zip(origins) {
        bytes.extend(x.to_le_bytes());
        bytes.extend(y.to_le_bytes());
        bytes.extend(origin.to_le_bytes());
    }
    bytes
}

fn frame(kind: u8, flags: u8, ring: &[Coord]) -> Vec<u8> {
    Frame { kind, flags, bounds: [0.0, 0.0, 10.0, 10.0], buffer: 0.0, parts: vec![vec![ring.to_vec()]] }.encode()
}

fn assert_answer(kind: u8, flags: u8, ring: &[Coord], expected: &[u8]) {
    let frame = frame(kind, flags, ring);
    assert_eq!(oracle::answer(&frame, ROOM).as_deref(), Ok(expected), "the Rust, flags {flags}, {ring:?}");
    assert_eq!(Reading::RIGHT.answer(&frame, ROOM).as_deref(), Ok(expected), "the reading, flags {flags}, {ring:?}");
}

fn assert_polygon(flags: &[u8], ring: &[Coord], expected: &[u8]) {
    flags.iter().for_each(|&flags| assert_answer(POLYGON, flags, ring, expected));
}

const EVERY_FLAG: &[u8] = &[0, 1, 2, 3];

#[test]
fn square_inside() {
    assert_polygon(EVERY_FLAG, &[(2., 2.), (8., 2.), (8., 8.), (2., 8.), (2., 2.)], UNCHANGED);
}

#[test]
fn square_across_the_east_bound() {
    let ring = [(5., 5.), (15., 5.), (15., 8.), (5., 8.), (5., 5.)];
    let origins = [0, RIGHT, RIGHT, 3, 0];
    assert_polygon(&[3], &ring, &cut(&[(5., 5.), (10., 5.), (10., 8.), (5., 8.), (5., 5.)], &origins));
    assert_polygon(&[0, 1, 2], &ring, &overlay(4, 0, 0));
}

#[test]
fn bow_tie_inside() {
    let ring = [(2., 2.), (8., 8.), (8., 2.), (2., 8.), (2., 2.)];
    assert_polygon(&[0], &ring, &overlay(8, 0, 2));
    assert_polygon(&[1], &ring, UNCHANGED);
    assert_answer(MULTIPOLYGON, 0, &ring, UNCHANGED);
}

#[test]
fn exteriors_with_issues() {
    assert_polygon(EVERY_FLAG, &[(2., 2.), (8., 2.), (2., 2.)], &overlay(1, 0, 0));
    assert_polygon(EVERY_FLAG, &[(2., 2.), (2., 2.), (8., 2.), (8., 8.), (2., 2.)], &overlay(7, 0, 0));
    assert_polygon(EVERY_FLAG, &[(2., 2.), (8., 2.), (8., 8.), (2., 2.), (2., 2.)], UNCHANGED);
}

#[test]
fn square_that_touches_the_east_bound() {
    assert_polygon(EVERY_FLAG, &[(10., 2.), (20., 2.), (20., 8.), (10., 8.), (10., 2.)], &overlay(9, 0, 0));
}

/// The number of the reason that the one listed part, an overlay, is answered with.
fn reason_number(answer: &[u8]) -> u8 {
    match Answer::decode(answer) {
        Some(Ok(Answer::Listed { parts, .. })) => match parts[..] {
            [ListedPart { listed: Listed::Overlay(reason), .. }] => reason.number,
            _ => panic!("no overlay alone: {parts:?}"),
        },
        other => panic!("not listed: {other:?}"),
    }
}

/// The cases above and below that document 01 gives a reason, by its own number: both sides' reasons merged back.
#[test]
fn reasons_merged_back_are_those_written_in_document_01() {
    let cases: [(&[u8], &[Coord], u8); 6] = [
        (&[0, 1, 2], &[(5., 5.), (15., 5.), (15., 8.), (5., 8.), (5., 5.)], 4),
        (&[0], &[(2., 2.), (8., 8.), (8., 2.), (2., 8.), (2., 2.)], 1),
        (EVERY_FLAG, &[(2., 2.), (8., 2.), (2., 2.)], 1),
        (EVERY_FLAG, &[(2., 2.), (2., 2.), (8., 2.), (8., 8.), (2., 2.)], 1),
        (EVERY_FLAG, &[(10., 2.), (20., 2.), (20., 8.), (10., 8.), (10., 2.)], 2),
        (EVERY_FLAG, &[(2., 2.), (9e149, 2.), (2., 2.)], 1),
    ];
    for (flags, ring, written) in cases {
        for &flags in flags {
            let frame = frame(POLYGON, flags, ring);
            for answer in [oracle::answer(&frame, ROOM), Reading::RIGHT.answer(&frame, ROOM)] {
                let number = reason_number(&answer.expect("it is not refused"));
                assert_eq!(merged(number), written, "reason {number}, flags {flags}, {ring:?}");
            }
        }
    }
}

/// Both lie outside, beyond the corner, with a rectangle that is not apart.
#[test]
fn an_issue_wins_over_an_empty_cut() {
    assert_polygon(EVERY_FLAG, &[(9., 12.), (12., 9.), (12., 12.), (9., 12.)], NOTHING);
    assert_polygon(EVERY_FLAG, &[(9., 12.), (12., 9.), (12., 9.), (12., 12.), (9., 12.)], &overlay(7, 1, 0));
}

#[test]
fn magnitudes_of_1e150() {
    assert_polygon(EVERY_FLAG, &[(2., 2.), (1e150, 2.), (2., 2.)], DROPPED);
    assert_polygon(EVERY_FLAG, &[(2., 2.), (9e149, 2.), (2., 2.)], &overlay(1, 0, 0));
}

#[test]
fn triangle_apart() {
    assert_polygon(EVERY_FLAG, &[(20., 20.), (30., 20.), (30., 30.), (20., 20.)], NOTHING);
    assert_polygon(EVERY_FLAG, &[(20., 20.), (30., f64::NAN), (30., 30.), (20., 20.)], DROPPED);
}

#[test]
fn overflowing_differences_close_twice() {
    let ring = [(8., 8.), (1e308, 1e308), (-1.7e308, -1.7e308), (8., 8.)];
    let nan = (f64::from_bits(0x7ff8_0000_0000_0000), 0.);
    let origins = [BOTTOM, LEFT, 0, RIGHT, BOTTOM, BOTTOM, BOTTOM];
    assert_polygon(&[3], &ring, &cut(&[nan, (0., 0.), (8., 8.), (10., 10.), nan, nan, nan], &origins));
}

/// What a ring call answers and the numbers and origins it writes.
fn assert_cut_ring(ring: &[Coord], expected: &[Coord], origins: &[u16]) {
    let call = worked::ring_call(ring, Beside::all(10));
    for after in [call.after(&oracle::ring_call(&call)), ring_call(&Reading::RIGHT, &call)] {
        assert_eq!(after.answer, expected.len() as i64, "{ring:?}");
        assert!(same_numbers(&after.out[..2 * expected.len()], &flat(expected)), "{ring:?}: {:?}", after.out);
        assert_eq!(after.out_origins[..expected.len()], *origins, "{ring:?}");
    }
}

#[test]
fn ring_cutter_gives_none() {
    assert_cut_ring(&[(1., 1.), (2., 2.), (1., 1.), (1., 1.)], &[], &[]);
}

/// The ring call closes once: the closing vertex has the origin of the first.
#[test]
fn ring_cutter_gives_a_nan() {
    let (infinity, nan) = (f64::INFINITY, (f64::NAN, 0.));
    assert_cut_ring(&[(5., 5.), (infinity, infinity)], &[nan, (5., 5.), nan, nan], &[BOTTOM, 0, BOTTOM, BOTTOM]);
}

/// So many zeros, none of them negative, and behind them what was lent.
fn assert_zeros(out: &[f64], zeros: usize) {
    let expected = (0..out.len()).map(|place| if place < zeros { 0.0 } else { unwritten(place) });
    assert!(out.iter().map(|number| number.to_bits()).eq(expected.map(f64::to_bits)), "{out:?}");
}

fn assert_zero_origins(origins: &[u16], zeros: usize) {
    let expected = (0..origins.len()).map(|place| if place < zeros { 0 } else { unwritten_origin(place) });
    assert!(origins.iter().copied().eq(expected), "{origins:?}");
}

/// On one vertex an output of seven numbers gets six zeros, and the seventh stays; of four origins the fourth stays.
#[test]
fn a_ring_call_that_leaves_no_vertex_writes_zeros() {
    let call = worked::one_vertex();
    assert_eq!((call.ring.as_slice(), call.out.len()), (&[5.0, 5.0][..], 7));
    for after in [call.after(&oracle::ring_call(&call)), ring_call(&Reading::RIGHT, &call)] {
        assert_eq!(after.answer, 0);
        assert_zeros(&after.scratch, after.scratch.len());
        assert_zeros(&after.out, 6);
        assert_zero_origins(&after.origin_scratch, after.origin_scratch.len());
        assert_zero_origins(&after.out_origins, 3);
        assert_eq!(after.out_origins.len(), 4);
    }
}

/// A coordinate with a NaN doesn't equal itself, so closed the ring has two: 22 zeros, and not 6.
#[test]
fn a_slice_call_that_drops_writes_zeros_for_the_closed_ring() {
    let call = worked::lone_nan();
    assert_eq!((call.coords[0].is_nan(), call.coords[1], call.lengths.as_slice()), (true, 5.0, &[1][..]));
    for after in [call.after(&oracle::slice_call(&call)), slice_call(&Reading::RIGHT, &call)] {
        assert_eq!(after.answer, 1);
        assert_zeros(&after.scratch, after.scratch.len());
        assert_zeros(&after.out, 22);
        assert!(after.out.len() > 22);
        assert_zero_origins(&after.origin_scratch, after.origin_scratch.len());
        assert_zero_origins(&after.out_origins, 11);
        assert!(after.out_origins.len() > 11);
        assert!(after.order.iter().all(|&position| position == 0));
        assert_eq!(after.out_lengths, call.out_lengths);
    }
}

#[test]
fn program_on_three_lines() {
    let zeros = |bytes: usize| "00".repeat(bytes);
    let first = ["06", "00", &zeros(16), &"0000000000002440".repeat(2), &zeros(8), "0000"].concat();
    let input = format!("{first}\n03\n0g");
    let printed = b"0000000000\n0b00000000\n0a00000000\n";
    assert_eq!(oracle::lines(input.as_bytes()), printed);
    assert_eq!(Reading::RIGHT.lines(input.as_bytes()), printed);
}
