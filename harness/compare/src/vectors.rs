//! Samples of the oracle's answers for programs that replay them: some of each kind of specimen and each answer that it gets,
//! short ones, and one of any length where no short one came first. Calls that are worked by hand follow.

use std::collections::BTreeMap;

use formats::calls::{RingCall, SliceCall, MOST_COORDINATES};
use formats::frame::{Frame, POLYGON};
use formats::vectors::{
    encode_rings, encode_slices, marks, origin_marks, whole_marks, RingVector, SliceVector, MARK, MOST_LENT,
    ORIGIN_MARK, WHOLE_MARK,
};
use formats::{Bounds, Ring};
use generator::Style;

use crate::calls::{ring_label, slice_label_with_reason, styles};
use crate::frames::{self, kinds};
use crate::hex;
use crate::shallow::shallow_exteriors;
use crate::worked::{self, Beside, BOUNDS};

/// Specimens of a kind that are looked at.
const TRIED: u64 = 4_000;

/// The bytes of a short frame, the characters of a short line, and the numbers of a short call.
const SHORT_FRAME: usize = 250;
const SHORT_LINE: usize = 500;
const SHORT_CALL: usize = 40;

/// No call has more numbers than that, but for one of each kind that is refused with 20.
const MOST_NUMBERS: usize = 400;

/// How many of each answer are kept so far.
struct Kept {
    most: u64,
    answers: BTreeMap<String, u64>,
}

impl Kept {
    fn new(most: u64) -> Kept {
        Kept { most, answers: BTreeMap::new() }
    }

    /// Whether a specimen with that answer is kept.
    fn keeps(&mut self, answer: String, is_short: bool) -> bool {
        let kept = self.answers.entry(answer).or_default();
        let keeps = *kept == 0 || (is_short && *kept < self.most);
        *kept += u64::from(keeps);
        keeps
    }
}

/// Input of the program: frames of each kind, up to `count` for each answer, worked ones of each reason, one that closes twice and some
/// with shallow pairs, and lines that are right and wrong. The last one has no newline.
pub fn lines(seed: u64, count: u64) -> Vec<u8> {
    let mut input = Vec::new();
    for (_, kind) in kinds() {
        let mut kept = Kept::new(count);
        for index in 0..TRIED {
            let frame = generator::frame(kind, seed, index).frame;
            let answer = frames::label(&oracle::answer(&frame, usize::MAX));
            if kept.keeps(answer.to_string(), frame.len() <= SHORT_FRAME) {
                push_line(&mut input, hex(&frame).as_bytes());
            }
        }
    }
    for (flags, bounds, ring) in worked_exteriors() {
        let frame = Frame { kind: POLYGON, flags, bounds, buffer: 0.0, parts: vec![vec![ring]] };
        push_line(&mut input, hex(&frame.encode()).as_bytes());
    }
    let mut kept = Kept::new(10 * count);
    for index in 0..TRIED {
        for line in generator::lines(seed, index).split(|&byte| byte == b'\n') {
            let refusal = oracle::lines(line).get(..2).map(<[u8]>::to_vec);
            if kept.keeps(format!("{refusal:?}, long: {}", line.len() > 10_000), line.len() <= SHORT_LINE) {
                push_line(&mut input, line);
            }
        }
    }
    input.extend(b"03");
    input
}

/// Worked exteriors with the flags and the bounds that they are replayed with: every reason, one that closes twice, shallow pairs.
fn worked_exteriors() -> Vec<(u8, Bounds, Ring)> {
    let of_each_reason = worked::exterior_of_each_reason().into_iter().map(|(_, flags, ring)| (flags[0], BOUNDS, ring));
    let shallow = shallow_exteriors().into_iter().map(|(bounds, ring)| (0, bounds, ring));
    of_each_reason.chain([(3, BOUNDS, worked::OVERFLOWING.to_vec())]).chain(shallow).collect()
}

fn push_line(input: &mut Vec<u8>, line: &[u8]) {
    input.extend(line);
    input.push(b'\n');
}

/// Ring calls of each style, up to `count` for each answer, worked ones, and one of too many coordinates.
pub fn rings(seed: u64, count: u64) -> Vec<u8> {
    let sampled = |style, index| {
        let (call, answer) = answered_ring_call(generator::ring_call(style, seed, index));
        let lent = [call.scratch.len(), call.origin_scratch.len(), call.out.len(), call.out_origins.len()];
        Sampled {
            numbers: call.ring.len(),
            longest: lent.into_iter().fold(0, usize::max),
            answer: ring_label(&answer).to_string(),
            vector: (call, answer),
        }
    };
    let mut vectors: Vec<RingVector> = sample(count, sampled);
    vectors.extend(worked_rings().into_iter().map(answered_ring_call));
    vectors.push((too_long_ring_call(), Err(20)));
    encode_rings(&vectors)
}

/// Slice calls of each style, up to `count` for each answer, worked ones, and one of too many coordinates.
pub fn slices(seed: u64, count: u64) -> Vec<u8> {
    let sampled = |style, index| {
        let (call, answer) = answered_slice_call(generator::slice_call(style, seed, index));
        let work = [call.scratch.len(), call.origin_scratch.len(), call.order.len()];
        let output = [call.out.len(), call.out_lengths.len(), call.out_origins.len()];
        let rings = answer.as_ref().map_or(0, |answer| answer.cut_rings().len());
        Sampled {
            numbers: call.coords.len(),
            longest: work.into_iter().chain(output).fold(0, usize::max),
            answer: format!("{}, {rings} rings", slice_label_with_reason(&answer)),
            vector: (call, answer),
        }
    };
    let mut vectors: Vec<SliceVector> = sample(count, sampled);
    vectors.extend(worked_slices().into_iter().map(answered_slice_call));
    vectors.push((too_long_slice_call(), Err(20)));
    encode_slices(&vectors)
}

/// A call with its answer, the numbers that it lends, its longest slice to write to, and the answer in a word.
struct Sampled<T> {
    vector: T,
    numbers: usize,
    longest: usize,
    answer: String,
}

/// Calls of each style, up to `count` for each answer.
fn sample<T>(count: u64, sampled: impl Fn(Style, u64) -> Sampled<T>) -> Vec<T> {
    let mut vectors = Vec::new();
    for (_, style) in styles() {
        let mut kept = Kept::new(count);
        for Sampled { vector, numbers, longest, answer } in (0..TRIED).map(|index| sampled(style, index)) {
            let fits = numbers <= MOST_NUMBERS && longest <= MOST_LENT;
            if fits && kept.keeps(answer, numbers <= SHORT_CALL) {
                vectors.push(vector);
            }
        }
    }
    vectors
}

/// Every answer with an output that is exact, longer by one and as long as it may be.
fn worked_rings() -> Vec<RingCall> {
    let mut calls = vec![worked::one_vertex()];
    for (_, ring) in worked::ring_of_each_answer() {
        let exact = worked::ring_call(&ring, Beside::default());
        calls.extend(spare(exact.out_origins.len()).map(|beside| worked::ring_call(&ring, beside)));
    }
    calls.extend(worked::ring_of_each_origin().iter().map(|(ring, _)| worked::ring_call(ring, Beside::default())));
    calls
}

/// The same, and exteriors of every reason, one that closes twice and such with shallow pairs.
fn worked_slices() -> Vec<SliceCall> {
    let mut calls = vec![worked::lone_nan()];
    for (_, flags, part) in worked::polygon_of_each_answer() {
        let exact = worked::slice_call(flags, &part, Beside::default());
        calls.extend(spare(exact.out_origins.len()).map(|beside| worked::slice_call(flags, &part, beside)));
    }
    for (flags, bounds, ring) in worked_exteriors() {
        calls.push(SliceCall { bounds, ..worked::slice_call(flags, &[ring], Beside::default()) });
    }
    calls
}

/// How much longer than asked the outputs of worked calls are, of which room for so many coordinates is asked.
fn spare(asked: usize) -> [Beside; 3] {
    let longest = |asked: usize| (MOST_LENT - asked) as isize;
    [(0, 0), (1, 1), (longest(2 * asked), longest(asked))].map(|(out, out_origins)| Beside {
        out,
        out_origins,
        ..Beside::default()
    })
}

fn answered_ring_call(call: RingCall) -> RingVector {
    let call = with_marks_in_ring_call(call);
    let answer = oracle::ring_call(&call);
    (call, answer)
}

fn answered_slice_call(call: SliceCall) -> SliceVector {
    let call = with_marks_in_slice_call(call);
    let answer = oracle::slice_call(&call);
    (call, answer)
}

fn with_marks_in_ring_call(mut call: RingCall) -> RingCall {
    for lent in [&mut call.scratch, &mut call.out] {
        lent.fill(MARK);
    }
    for lent in [&mut call.origin_scratch, &mut call.out_origins] {
        lent.fill(ORIGIN_MARK);
    }
    call
}

fn with_marks_in_slice_call(mut call: SliceCall) -> SliceCall {
    for lent in [&mut call.scratch, &mut call.out] {
        lent.fill(MARK);
    }
    for lent in [&mut call.order, &mut call.out_lengths] {
        lent.fill(WHOLE_MARK);
    }
    for lent in [&mut call.origin_scratch, &mut call.out_origins] {
        lent.fill(ORIGIN_MARK);
    }
    call
}

fn too_long_ring_call() -> RingCall {
    let ring = vec![0.0; 2 * MOST_COORDINATES + 2];
    RingCall {
        ring,
        bounds: [0.0; 4],
        scratch: marks(2),
        origin_scratch: origin_marks(1),
        out: marks(2),
        out_origins: origin_marks(1),
    }
}

fn too_long_slice_call() -> SliceCall {
    let coordinates = MOST_COORDINATES + 1;
    SliceCall {
        assume_simple: true,
        skip_boundary_fallback: true,
        bounds: [0.0; 4],
        buffer: 0.0,
        coords: vec![0.0; 2 * coordinates],
        lengths: vec![coordinates as u32],
        scratch: marks(2),
        origin_scratch: origin_marks(1),
        order: whole_marks(2),
        out: marks(2),
        out_lengths: whole_marks(1),
        out_origins: origin_marks(1),
    }
}
