//! The frame call: document 01's worked cases, a cut's origins, an overlay's reasons with their positions, the repository's examples,
//! every refusal, outputs exact, one short and larger.

mod hexadecimal;

use hexadecimal::{bytes_of, lines_of};
use ringcut::{cut_frame, Refusal, MOST_FRAME_OUTPUT};

/// What an output byte that no call has written holds here.
const UNWRITTEN: u8 = 0xa5;

const SQUARE: &[f64] = &[2., 2., 8., 2., 8., 8., 2., 8., 2., 2.];
const ACROSS_EAST: &[f64] = &[5., 5., 15., 5., 15., 8., 5., 8., 5., 5.];
const BOW_TIE: &[f64] = &[2., 2., 8., 8., 8., 2., 2., 8., 2., 2.];

/// A coordinate of a cut: x, y and its origin.
type Vertex = (f64, f64, u16);

/// The numbers of the lines.
const LEFT: u16 = 65_532;
const RIGHT: u16 = 65_533;
const BOTTOM: u16 = 65_534;

/// What `ACROSS_EAST` is cut to.
const ACROSS_EAST_CUT: &[Vertex] = &[(5., 5., 0), (10., 5., RIGHT), (10., 8., RIGHT), (5., 8., 3), (5., 5., 0)];

/// A frame on the bounds 0, 0, 10, 10 with buffer 0; a part is its rings, a ring x, y numbers.
fn frame(kind: u8, flags: u8, parts: &[&[&[f64]]]) -> Vec<u8> {
    let mut bytes = vec![kind, flags];
    for number in [0.0, 0.0, 10.0, 10.0, 0.0_f64] {
        bytes.extend(number.to_le_bytes());
    }
    let count = |n: usize| (n as u16).to_le_bytes();
    bytes.extend(count(parts.len()));
    for part in parts {
        bytes.extend(count(part.len()));
        for ring in *part {
            bytes.extend(count(ring.len() / 2));
            bytes.extend(ring.iter().flat_map(|number| number.to_le_bytes()));
        }
    }
    bytes
}

/// The answer, with an output of that many bytes; what the call must leave as it was is looked at.
fn answer(frame: &[u8], room: usize) -> Result<Vec<u8>, Refusal> {
    let mut out = vec![UNWRITTEN; room];
    let answered = cut_frame(frame, &mut out);
    let rest = out.split_off(answered.unwrap_or(0));
    assert!(rest.iter().all(|&byte| byte == UNWRITTEN));
    answered.map(|_| out)
}

/// The answer to a frame of one polygon of one ring.
fn polygon(flags: u8, ring: &[f64]) -> Vec<u8> {
    answer(&frame(3, flags, &[&[ring]]), MOST_FRAME_OUTPUT).unwrap()
}

/// A listed part that is cut, behind its number: its rings, with 18 bytes a coordinate.
fn cut(rings: &[&[Vertex]]) -> Vec<u8> {
    let mut bytes = vec![4, 0];
    bytes.extend((rings.len() as u16).to_le_bytes());
    for ring in rings {
        bytes.extend((ring.len() as u16).to_le_bytes());
        for (x, y, origin) in *ring {
            bytes.extend([x, y].into_iter().flat_map(|number| number.to_le_bytes()));
            bytes.extend(origin.to_le_bytes());
        }
    }
    bytes
}

/// An answer that lists part 0 alone, as cut to these rings.
fn cut_alone(rings: &[&[Vertex]]) -> Vec<u8> {
    [vec![3, 0, 0, 1, 0, 0, 0], cut(rings)].concat()
}

/// An answer that lists part 0 as an overlay: its reason, and two positions.
fn overlay(reason: u8, first: u16, second: u16) -> Vec<u8> {
    let mut answer = vec![3, 0, 0, 1, 0, 0, 0, 5, reason];
    answer.extend(first.to_le_bytes());
    answer.extend(second.to_le_bytes());
    answer
}

fn refusal(frame: &[u8]) -> Option<Refusal> {
    answer(frame, MOST_FRAME_OUTPUT).err()
}

#[test]
fn worked_frames() {
    for flags in 0..4 {
        assert_eq!(polygon(flags, SQUARE), [2, 0, 0, 0, 0]);
    }
    for flags in 0..3 {
        assert_eq!(polygon(flags, ACROSS_EAST), overlay(4, 0, 0));
    }
    assert_eq!(polygon(3, ACROSS_EAST), cut_alone(&[ACROSS_EAST_CUT]));
    assert_eq!(polygon(0, BOW_TIE), overlay(8, 0, 2));
    assert_eq!(polygon(1, BOW_TIE), [2, 0, 0, 0, 0]);
    assert_eq!(polygon(0, &[2., 2., 1e150, 2., 2., 2.]), [1, 1, 0, 0, 0]);
    assert_eq!(polygon(0, &[20., 20., 30., 20., 30., 30., 20., 20.]), [0; 5]);
    assert_eq!(polygon(0, &[20., 20., f64::NAN, 20., 30., 30., 20., 20.]), [1, 1, 0, 0, 0]);
    assert_eq!(answer(&frame(6, 0, &[&[BOW_TIE]]), MOST_FRAME_OUTPUT).unwrap(), [2, 0, 0, 0, 0]);
    assert_eq!(answer(&frame(6, 0, &[]), 5).unwrap(), [0; 5]);
}

/// Every ring has positions of its own, counted as they stand in the frame, and a ring that is sent open is closed.
#[test]
fn a_coordinate_of_a_cut_ends_with_its_origin() {
    assert_eq!(polygon(3, &ACROSS_EAST[..8]), cut_alone(&[ACROSS_EAST_CUT]));
    assert_eq!(cut_alone(&[ACROSS_EAST_CUT]).len(), 13 + 5 * 18);

    let hole: &[f64] = &[14., 6., 14., 7., 6., 7.];
    let hole_cut: &[Vertex] = &[(10., 6.5, RIGHT), (10., 7., RIGHT), (6., 7., 2), (10., 6.5, RIGHT)];
    let holed = answer(&frame(3, 3, &[&[ACROSS_EAST, hole]]), MOST_FRAME_OUTPUT).unwrap();
    assert_eq!(holed, cut_alone(&[ACROSS_EAST_CUT, hole_cut]));

    let over_a_corner = [-5., -5., 5., -5., 5., 5., -5., 5., -5., -5.];
    let cut = [(0., 0., BOTTOM), (5., 0., BOTTOM), (5., 5., 2), (0., 5., LEFT), (0., 0., BOTTOM)];
    assert_eq!(polygon(3, &over_a_corner), cut_alone(&[&cut]));
}

/// Crossings overflow to a NaN here, so that each of the two closings appends the first coordinate with its origin.
#[test]
fn a_coordinate_that_closes_a_cut_has_the_origin_of_the_first() {
    let ring = [8., 8., 1e308, 1e308, -1.7e308, -1.7e308, 8., 8.];
    let nan = (f64::from_bits(0x7ff8_0000_0000_0000), 0., BOTTOM);
    let cut = [nan, (0., 0., LEFT), (8., 8., 0), (10., 10., RIGHT), nan, nan, nan];
    assert_eq!(polygon(3, &ring), cut_alone(&[&cut]));
}

#[test]
fn an_overlay_ends_with_two_positions() {
    for flags in 0..4 {
        assert_eq!(polygon(flags, &[2., 2., 8., 2., 2., 2.]), overlay(1, 0, 0));
        assert_eq!(polygon(flags, &[4., 15., 6., 15., 5., 10., 4., 15.]), overlay(2, 0, 0));
        assert_eq!(polygon(flags, &[2., 2., 8., 2., 8., 8., 8., 8., 2., 2.]), overlay(7, 2, 0));
        assert_eq!(polygon(flags, &[10., 2., 20., 2., 20., 8., 10., 8., 10., 2.]), overlay(9, 0, 0));
    }
    // Edges 1 and 3 cross too.
    assert_eq!(polygon(0, &[2., 6., 3., 7., 4., 2., 6., 7., 3., 5., 2., 8., 2., 6.]), overlay(8, 0, 4));
    assert_eq!(polygon(0, &[5., 3., -4., 6., 9., 2., 2., 4., 5., 3.]), overlay(10, 0, 3));
}

/// An overlay between parts of the two other kinds.
#[test]
fn other_listed_parts_have_no_positions() {
    let repeated: &[f64] = &[5., 9., 6., 15., 6., 15., 5., 15., 5., 9.];
    let parts: &[&[&[f64]]] = &[&[SQUARE], &[repeated], &[ACROSS_EAST]];
    let mut expected = vec![3, 0, 0, 3, 0];
    expected.extend([0, 0, 2, 0]);
    expected.extend([1, 0, 5, 7, 1, 0, 0, 0]);
    expected.extend([2, 0]);
    expected.extend(cut(&[ACROSS_EAST_CUT]));
    assert_eq!(answer(&frame(6, 3, parts), MOST_FRAME_OUTPUT).unwrap(), expected);
}

/// The lines that the program `ringcut` answers; 10, for a line that is no frame, is the program's alone.
#[test]
fn the_examples_of_the_repository() {
    let [frames, answers] = ["frames.hex", "answers.hex"].map(lines_of);
    assert_eq!(frames.len(), answers.len());
    let mut compared = 0;
    for (line, expected) in frames.iter().zip(&answers) {
        let Some(frame) = bytes_of(line) else {
            assert_eq!(expected, "0a00000000");
            continue;
        };
        let printed = match answer(&frame, MOST_FRAME_OUTPUT) {
            Ok(bytes) => bytes,
            Err(refusal) => vec![refusal.number(), 0, 0, 0, 0],
        };
        assert_eq!(Some(printed), bytes_of(expected), "{line}");
        compared += 1;
    }
    assert_eq!(compared, 46);
}

#[test]
fn every_refusal() {
    let good = frame(3, 0, &[&[SQUARE]]);
    let (head, body) = good.split_at(44);
    let with = |at: usize, byte: u8| {
        let mut frame = good.clone();
        frame[at] = byte;
        refusal(&frame)
    };
    assert_eq!(refusal(&good), None);
    assert_eq!(refusal(&[]), Some(Refusal::Size));
    assert_eq!(refusal(&head[..43]), Some(Refusal::Size));
    assert_eq!(refusal(&vec![3; 5_121]), Some(Refusal::Size));
    assert_eq!(with(0, 4), Some(Refusal::Kind));
    assert_eq!(with(1, 4), Some(Refusal::Flags));
    assert_eq!(with(42, 0), Some(Refusal::PartCount));
    assert_eq!(with(42, 2), Some(Refusal::PartCount));
    assert_eq!(refusal(head), Some(Refusal::Truncated));
    assert_eq!(refusal(&good[..good.len() - 1]), Some(Refusal::Truncated));
    assert_eq!(with(44, 0), Some(Refusal::RingCount));
    assert_eq!(with(44, 65), Some(Refusal::RingCount));
    assert_eq!(with(47, 0x10), Some(Refusal::CoordinateCount));
    assert_eq!(refusal(&[head, body, &[0]].concat()), Some(Refusal::Trailing));
    assert_eq!(answer(&good, 0), Err(Refusal::Output));
}

#[test]
fn the_output_is_exact_or_one_short() {
    let two_rings: &[&[f64]] = &[ACROSS_EAST, &[6., 6., 14., 6., 14., 7., 6., 6.]];
    // 5, and for each part 6 + 2 × rings + 18 × B: B(5) = 24, B(4) = 21, and a triangle lent unclosed has 4.
    for (frame, room) in [
        (frame(6, 0, &[]), 5),
        (frame(3, 3, &[&[SQUARE]]), 5 + 8 + 18 * 24),
        (frame(3, 3, &[two_rings]), 5 + 10 + 18 * (24 + 21)),
        (frame(6, 3, &[&[SQUARE], &[&[20., 20., 30., 20., 30., 30.]]]), 5 + 8 + 18 * 24 + 8 + 18 * 21),
        (frame(3, 0, &[&[&[f64::NAN, 0.]]]), 5 + 8 + 18 * 11),
    ] {
        let exact = answer(&frame, room);
        assert!(exact.is_ok());
        assert_eq!(answer(&frame, room - 1), Err(Refusal::Output));
        assert_eq!(answer(&frame, room + 100), exact);
    }
}

/// 281 rings of one NaN coordinate in nine parts, in a frame of 5,120 bytes.
#[test]
fn the_most_output_is_enough_and_no_byte_too_many() {
    let ring: &[f64] = &[f64::NAN, 0.];
    let rings = [ring; 281];
    let parts: Vec<&[&[f64]]> = rings.chunks(32).collect();
    let frame = frame(6, 0, &parts);
    assert_eq!((frame.len(), parts.len()), (5_120, 9));
    assert_eq!(answer(&frame, MOST_FRAME_OUTPUT).unwrap(), [1, 1, 0, 0, 0]);
    assert_eq!(answer(&frame, MOST_FRAME_OUTPUT - 1), Err(Refusal::Output));
}
