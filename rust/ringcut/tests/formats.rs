//! Frames that are built and read, and answers that are read: every limit of a frame from both sides, every error of an answer in few
//! bytes, and the repository's examples.

mod hexadecimal;

use hexadecimal::{bytes_of, lines_of};
use ringcut::{
    answer_frame, AnswerError, Bounds, Edge, Flags, Frame, FrameAnswer, FrameBuilder, Issue, Kind, ListedPart, Origin,
    PartAnswer, Reason, Refusal, Vertex, LONGEST_FRAME, MOST_FRAME_OUTPUT,
};

const BOUNDS: Bounds = Bounds { west: 0.0, south: 1.0, east: 2.0, north: 3.0 };

/// The bytes of a frame without parts.
const HEAD: usize = 44;

/// The rings of a part, each of so many numbers.
fn part(lengths: &[usize]) -> Vec<Vec<f64>> {
    lengths.iter().map(|&length| (0..length).map(|k| k as f64 / 4.0).collect()).collect()
}

/// What comes of each part, and the frame's bytes, with so many lent.
fn build(kind: Kind, room: usize, parts: &[Vec<Vec<f64>>]) -> (Vec<Option<Refusal>>, Result<Vec<u8>, Refusal>) {
    let mut room = vec![0; room];
    let mut builder = FrameBuilder::new(kind, Flags::default(), BOUNDS, 0.5, &mut room).unwrap();
    let refused = parts.iter().map(|part| builder.part(part).err()).collect();
    (refused, builder.finish().map(<[u8]>::to_vec))
}

/// The same, with the length of the frame.
fn build_length(kind: Kind, room: usize, parts: &[Vec<Vec<f64>>]) -> (Vec<Option<Refusal>>, Result<usize, Refusal>) {
    let (refused, frame) = build(kind, room, parts);
    (refused, frame.map(|frame| frame.len()))
}

/// What comes of one part of a multipolygon, with so many bytes lent.
fn refused(room: usize, part: &[Vec<f64>]) -> Option<Refusal> {
    build(Kind::MultiPolygon, room, &[part.to_vec()]).0[0]
}

#[test]
fn a_frame_of_no_parts_takes_44_bytes() {
    for room in 0..HEAD {
        let mut room = vec![7; room];
        let begun = FrameBuilder::new(Kind::MultiPolygon, Flags::default(), BOUNDS, 0.5, &mut room);
        assert_eq!(begun.unwrap_err(), Refusal::Output);
        assert!(room.iter().all(|&byte| byte == 7));
    }
    assert_eq!(build_length(Kind::MultiPolygon, HEAD, &[]).1, Ok(HEAD));
    assert_eq!(build_length(Kind::Polygon, HEAD, &[]).1, Err(Refusal::PartCount));
}

#[test]
fn a_frame_has_up_to_256_parts_and_a_polygon_one() {
    let (refused, len) = build_length(Kind::MultiPolygon, LONGEST_FRAME, &vec![part(&[0]); 258]);
    assert!(refused[..256].iter().all(Option::is_none));
    assert_eq!(refused[256..], [Some(Refusal::PartCount); 2]);
    assert_eq!(len, Ok(HEAD + 256 * 4));
    let (refused, len) = build_length(Kind::Polygon, LONGEST_FRAME, &vec![part(&[2]); 2]);
    assert_eq!((refused, len), (vec![None, Some(Refusal::PartCount)], Ok(HEAD + 4 + 16)));
}

#[test]
fn a_part_has_1_to_64_rings() {
    assert_eq!(refused(LONGEST_FRAME, &[]), Some(Refusal::RingCount));
    assert_eq!(refused(LONGEST_FRAME, &part(&[0; 64])), None);
    assert_eq!(refused(LONGEST_FRAME, &part(&[0; 65])), Some(Refusal::RingCount));
}

/// What is over the count is told as such; what is not comes to the room, of which no frame has enough.
#[test]
fn a_ring_has_up_to_4096_coordinates() {
    for (numbers, refusal) in [
        (1, Refusal::Lengths),
        (8_191, Refusal::Lengths),
        (8_192, Refusal::Size),
        (8_193, Refusal::Lengths),
        (8_194, Refusal::CoordinateCount),
        (200_000, Refusal::CoordinateCount),
    ] {
        assert_eq!(refused(LONGEST_FRAME, &part(&[numbers])), Some(refusal), "{numbers} numbers");
    }
}

/// 317 coordinates take 44 + 2 + 2 + 317 × 16 bytes: 5,120. So do 316 with 8 empty rings.
#[test]
fn a_frame_has_up_to_5120_bytes() {
    let full = [&[632][..], &[0; 8]].concat();
    for room in [LONGEST_FRAME, LONGEST_FRAME + 1, 10_000] {
        let built = |lengths: &[usize]| build_length(Kind::Polygon, room, &[part(lengths)]);
        assert_eq!(built(&full), (vec![None], Ok(LONGEST_FRAME)));
        assert_eq!(built(&full[..8]), (vec![None], Ok(LONGEST_FRAME - 2)));
        assert_eq!(refused(room, &part(&[&full[..], &[0]].concat())), Some(Refusal::Size));
        assert_eq!(refused(room, &part(&[&full[..8], &[2]].concat())), Some(Refusal::Size));
        assert_eq!(built(&[634]), (vec![None], Ok(LONGEST_FRAME)));
        assert_eq!(refused(room, &part(&[636])), Some(Refusal::Size));
    }
    assert_eq!(refused(LONGEST_FRAME - 1, &part(&full)), Some(Refusal::Output));
}

#[test]
fn the_room_is_exact_or_short() {
    for lengths in [&[0][..], &[2], &[6, 0, 8]] {
        let exact = HEAD + 2 + lengths.iter().map(|length| 2 + 8 * length).sum::<usize>();
        assert_eq!(build_length(Kind::Polygon, exact, &[part(lengths)]), (vec![None], Ok(exact)));
        for room in HEAD..exact {
            assert_eq!(refused(room, &part(lengths)), Some(Refusal::Output), "{room} of {exact} bytes");
        }
    }
}

/// What is written first is refused first: the count of rings, then each ring, whose own count is looked at before.
#[test]
fn of_several_refusals_the_first_is_told() {
    let rings_65_and_odd = part(&[&[0; 64][..], &[1]].concat());
    assert_eq!(refused(LONGEST_FRAME, &rings_65_and_odd), Some(Refusal::RingCount));
    assert_eq!(refused(LONGEST_FRAME, &part(&[1, 8_194])), Some(Refusal::Lengths));
    assert_eq!(refused(LONGEST_FRAME, &part(&[8_194, 1])), Some(Refusal::CoordinateCount));
    assert_eq!(refused(LONGEST_FRAME, &part(&[8_192, 1])), Some(Refusal::Size));
    assert_eq!(build(Kind::MultiPolygon, LONGEST_FRAME, &[part(&[634]), part(&[])]).0, [None, Some(Refusal::Size)]);
    assert_eq!(refused(HEAD + 1, &[]), Some(Refusal::Output));
    assert_eq!(refused(HEAD + 2, &part(&[1])), Some(Refusal::Lengths));
}

/// Parts that are refused, for each limit one, between two that are not.
#[test]
fn a_refused_part_is_not_there() {
    let right = [part(&[2]), part(&[4, 6])];
    let wrong = [part(&[]), part(&[2, 3]), part(&[4, 8_194]), part(&[6, 634]), part(&[0; 65])];
    let parts = [&right[..1], &wrong, &right[1..]].concat();
    let (refused, frame) = build(Kind::MultiPolygon, LONGEST_FRAME, &parts);
    let [rings, odd, coordinates, size] = [16, 19, 17, 11].map(Refusal::from_number);
    assert_eq!(refused, [None, rings, odd, coordinates, size, rings, None]);
    assert_eq!(frame, build(Kind::MultiPolygon, LONGEST_FRAME, &right).1);
}

/// A frame's values, built anew.
fn built_again(frame: &Frame) -> Result<Vec<u8>, Refusal> {
    let mut room = [0xa5; LONGEST_FRAME];
    let mut builder = FrameBuilder::new(frame.kind, frame.flags, frame.bounds, frame.buffer, &mut room)?;
    for rings in frame.parts() {
        builder.part(rings.map(|ring| ring.iter().flatten().collect::<Vec<_>>()))?;
    }
    builder.finish().map(<[u8]>::to_vec)
}

/// The numbers of every field, bit patterns of a NaN and of a negative zero among them.
#[test]
fn a_frame_is_read_as_it_was_built() {
    let nan = f64::from_bits(0x7ff4_dead_beef_0001);
    let flags = Flags { assume_simple: false, skip_boundary_fallback: true };
    let bounds = Bounds { west: -180.0, south: -0.0, east: f64::INFINITY, north: 5e-324 };
    let mut room = [0; LONGEST_FRAME];
    let mut builder = FrameBuilder::new(Kind::MultiPolygon, flags, bounds, -1.5, &mut room).unwrap();
    builder.part([&[nan, -0.0][..], &[]]).unwrap().part([[1.0, 2.0, 3.0, 4.0]]).unwrap();
    let bytes = builder.finish().unwrap();
    let frame = Frame::read(bytes).unwrap();
    assert_eq!((frame.kind, frame.flags, frame.bounds, frame.buffer), (Kind::MultiPolygon, flags, bounds, -1.5));
    assert_eq!(frame.bounds.south.to_bits(), 1 << 63);
    let rings: Vec<_> = frame.parts().flatten().collect();
    assert_eq!(rings.iter().map(|ring| ring.len()).collect::<Vec<_>>(), [1, 0, 2]);
    assert_eq!(rings[0].iter().next().unwrap().map(f64::to_bits), [0x7ff4_dead_beef_0001, 1 << 63]);
    assert!(rings[2].iter().eq([[1.0, 2.0], [3.0, 4.0]]));
    assert_eq!(built_again(&frame).unwrap(), bytes);
}

/// An answer as bytes.
fn written(answer: &FrameAnswer) -> Vec<u8> {
    let (number, parts) = match answer {
        FrameAnswer::Nothing { .. } => (0, None),
        FrameAnswer::Dropped => (1, None),
        FrameAnswer::Unchanged => (2, None),
        FrameAnswer::Listed { parts, .. } => (3, Some(parts.clone())),
    };
    let mut bytes = vec![number];
    bytes.extend(answer.guard_count().to_le_bytes());
    bytes.extend(count(parts.as_ref().map_or(0, |parts| parts.len())));
    parts.into_iter().flatten().for_each(|part| write_part(part, &mut bytes));
    bytes
}

fn count(count: usize) -> [u8; 2] {
    (count as u16).to_le_bytes()
}

fn write_part(ListedPart { number, answer }: ListedPart, bytes: &mut Vec<u8>) {
    bytes.extend(count(number));
    match answer {
        PartAnswer::Unchanged => bytes.extend([2, 0]),
        PartAnswer::Overlay(reason) => {
            let (first, second) = reason.positions();
            bytes.extend([5, reason.number()]);
            bytes.extend([count(first), count(second)].concat());
        }
        PartAnswer::Cut(rings) => {
            bytes.extend([4, 0]);
            bytes.extend(count(rings.len()));
            for ring in rings {
                bytes.extend(count(ring.len()));
                for Vertex { x, y, origin } in ring {
                    bytes.extend([x, y].map(f64::to_le_bytes).concat());
                    bytes.extend(origin.number().to_le_bytes());
                }
            }
        }
    }
}

/// Each frame is read and built again, and each answer is read and written again, to the same bytes.
#[test]
fn the_examples_of_the_repository() {
    let [frames, answers] = ["frames.hex", "answers.hex"].map(lines_of);
    let (mut read, mut refused) = (0, 0);
    for (line, (frame, printed)) in (1..).zip(frames.iter().zip(&answers)) {
        let (frame, printed) = (bytes_of(frame), bytes_of(printed).unwrap());
        let right = match FrameAnswer::read_printed(&printed).unwrap() {
            Ok(answer) => answer,
            Err(refusal) => {
                let is_frame = frame.as_ref().map_or(Err(Refusal::Digits), |bytes| Frame::read(bytes).map(|_| ()));
                assert_eq!(
                    (is_frame, &printed[..]),
                    (Err(refusal), &[refusal.number(), 0, 0, 0, 0][..]),
                    "line {line}"
                );
                refused += 1;
                continue;
            }
        };
        let bytes = frame.unwrap();
        assert_eq!(built_again(&Frame::read(&bytes).unwrap()).as_ref(), Ok(&bytes), "line {line}");
        assert_eq!(written(&right), printed, "line {line}");
        assert_eq!(written(&answer_frame(&bytes, &mut [0; MOST_FRAME_OUTPUT]).unwrap()), printed, "line {line}");
        read += 1;
    }
    assert_eq!((read, refused, frames.len(), answers.len()), (38, 9, 47, 47));
}

/// The one listed part of an answer.
fn listed(part: &[u8]) -> Vec<u8> {
    [&[3, 0, 0, 1, 0], part].concat()
}

/// The same, cut: part 0, and its rings.
fn cut(rings: &[u8]) -> Vec<u8> {
    listed(&[&[0, 0, 4, 0], rings].concat())
}

/// So many of the shortest rings, which have four coordinates.
fn shortest_rings(rings: usize) -> Vec<u8> {
    [&count(rings)[..], &[&[4, 0][..], &[0; 4 * 18]].concat().repeat(rings)].concat()
}

/// One ring of so many coordinates.
fn ring_of(coordinates: usize) -> Vec<u8> {
    [&[1, 0][..], &count(coordinates), &vec![0; 18 * coordinates]].concat()
}

/// So many parts, all unchanged, numbered from `first`.
fn unchanged_parts(first: usize, parts: usize) -> Vec<u8> {
    let part = |number: usize| [count(number), [2, 0]].concat();
    [[3, 0, 0].to_vec(), count(parts).to_vec(), (first..first + parts).flat_map(part).collect()].concat()
}

#[test]
fn every_error_of_an_answer() {
    for (error, answers) in [
        (AnswerError::Truncated, vec![vec![], vec![9, 9, 9, 9], listed(&[0]), listed(&[0, 0, 9]), cut(&[1])]),
        (AnswerError::Truncated, vec![listed(&[0, 0, 5, 9, 9, 9, 9]), cut(&[1, 0, 1]), cut(&ring_of(4)[..75])]),
        (AnswerError::Number, vec![vec![4, 0, 0, 0, 0], vec![11, 0, 0, 0, 0], vec![255, 9, 9, 9, 9]]),
        (AnswerError::GuardCount, vec![vec![0, 1, 1, 0, 0], vec![1, 0, 0, 0, 0], vec![1, 2, 0, 0, 0]]),
        (AnswerError::GuardCount, vec![vec![2, 1, 0, 9, 9], vec![2, 0, 1, 0, 0], vec![3, 1, 1, 0, 0]]),
        (AnswerError::GuardCount, vec![unchanged_parts(0, 257), [&[3, 255, 0], &unchanged_parts(0, 2)[3..]].concat()]),
        (AnswerError::ListedCount, vec![vec![0, 0, 0, 1, 0], vec![1, 1, 0, 0, 1], vec![2, 0, 0, 1, 0]]),
        (AnswerError::ListedCount, vec![vec![3, 0, 0, 0, 0]]),
        (AnswerError::PartNumber, vec![listed(&[0, 1]), unchanged_parts(256, 1)]),
        (AnswerError::PartNumber, vec![vec![3, 0, 0, 2, 0, 7, 0, 2, 0, 7, 0], vec![3, 0, 0, 2, 0, 7, 0, 2, 0, 6, 0]]),
        (AnswerError::PartAnswer, vec![listed(&[0, 0, 0, 0]), listed(&[0, 0, 3, 0]), listed(&[0, 0, 6, 0])]),
        (AnswerError::PartAnswer, vec![listed(&[0, 0, 2, 1]), listed(&[0, 0, 4, 1])]),
        (AnswerError::Reason, vec![listed(&[0, 0, 5, 0, 0, 0, 0, 0]), listed(&[0, 0, 5, 11, 0, 0, 0, 0])]),
        (AnswerError::Reason, vec![listed(&[0, 0, 5, 4, 0, 1, 0, 0]), listed(&[0, 0, 5, 8, 0, 1, 255, 0])]),
        (AnswerError::RingCount, vec![cut(&[0, 0]), cut(&shortest_rings(65)), cut(&[0, 1])]),
        (AnswerError::CoordinateCount, vec![cut(&ring_of(0)), cut(&ring_of(3)), cut(&ring_of(4_097))]),
        (AnswerError::Trailing, vec![vec![2, 0, 0, 0, 0, 0], [cut(&ring_of(4)), vec![0]].concat()]),
    ] {
        for bytes in answers {
            assert_eq!(FrameAnswer::read(&bytes).unwrap_err(), error, "{bytes:?}");
        }
    }
}

#[test]
fn an_answer_at_a_limit_is_read() {
    for bytes in [
        vec![0, 0, 1, 0, 0],
        unchanged_parts(0, 256),
        unchanged_parts(255, 1),
        [&[3, 255, 0], &unchanged_parts(0, 1)[3..]].concat(),
        cut(&shortest_rings(64)),
        cut(&ring_of(4)),
        cut(&ring_of(4_096)),
    ] {
        assert_eq!(written(&FrameAnswer::read(&bytes).unwrap()), bytes);
    }
}

/// A refusal that the program gives, and what is none.
#[test]
fn what_is_printed_is_an_answer_or_a_refusal() {
    for number in 0..=255 {
        let read = FrameAnswer::read_printed(&[number, 0, 0, 0, 0]).map(|printed| printed.map(|_| ()));
        let right = match number {
            0 | 2 => Ok(Ok(())),
            1 => Err(AnswerError::GuardCount),
            3 => Err(AnswerError::ListedCount),
            10..=18 => Ok(Err(Refusal::from_number(number).unwrap())),
            _ => Err(AnswerError::Number),
        };
        assert_eq!(read, right, "{number}");
    }
    for (bytes, error) in [
        (&[10, 0, 0, 0][..], AnswerError::Truncated),
        (&[10, 0, 1, 1, 0, 0], AnswerError::GuardCount),
        (&[10, 0, 0, 1, 0, 0], AnswerError::ListedCount),
        (&[10, 0, 0, 0, 0, 0], AnswerError::Trailing),
    ] {
        assert_eq!(FrameAnswer::read_printed(bytes).unwrap_err(), error, "{bytes:?}");
    }
}

/// Numbers, positions and origins whose bytes differ.
#[test]
fn what_is_over_255_is_read_from_both_bytes() {
    let overlay = |number: u8, positions: [u8; 4]| {
        let bytes = listed(&[&[255, 0, 5, number][..], &positions].concat());
        let FrameAnswer::Listed { mut parts, .. } = FrameAnswer::read(&bytes).unwrap() else { panic!("it is listed") };
        match parts.next().unwrap() {
            ListedPart { number: 255, answer: PartAnswer::Overlay(reason) } => reason,
            other => panic!("{other:?}"),
        }
    };
    assert_eq!(overlay(7, [2, 1, 0, 0]), Reason::Input(Issue::Repeated { corner: 258 }));
    assert_eq!(overlay(8, [2, 1, 1, 2]), Reason::Input(Issue::Crossing { lower: 258, higher: 513 }));
    assert_eq!(overlay(10, [255, 0, 0, 1]), Reason::Cut(Issue::Crossing { lower: 255, higher: 256 }));
    assert_eq!(FrameAnswer::read(&[0, 0, 1, 0, 0]).unwrap().guard_count(), 256);

    let coordinates = |origin: [u8; 2]| [&[0; 16][..], &origin].concat();
    let ring = [[2, 1], [0xfd, 0xff], [0, 1], [1, 0]].map(coordinates).concat();
    let bytes = cut(&[&[1, 0, 4, 0], &ring[..]].concat());
    let FrameAnswer::Listed { mut parts, .. } = FrameAnswer::read(&bytes).unwrap() else { panic!("it is listed") };
    let PartAnswer::Cut(mut rings) = parts.next().unwrap().answer else { panic!("it is cut") };
    let origins: Vec<_> = rings.next().unwrap().iter().map(|vertex| vertex.origin).collect();
    let position = Origin::Position;
    assert_eq!(origins, [position(258), Origin::Line(Edge::Right), position(256), position(1)]);
}
