//! Harm done to the bytes of frames and of answers, each way by itself, so that it is seen how often each is refused and for what. The
//! damaged frames among the kinds of frames have several mixed.

use formats::answer::{Answer, Listed};
use formats::frame::Frame;

use crate::frames::whole;
use crate::rng::Rng;

#[derive(Clone, Copy, Debug, PartialEq, Eq)]
pub enum Harm {
    /// One bit is another.
    Bit,
    /// Some bytes are missing.
    LeftOut,
    /// Some bytes stand there twice.
    Doubled,
    /// The end is missing.
    CutOff,
    /// Bytes stand behind the end.
    Behind,
    /// A count, a part's number or a position is another.
    Count,
}

impl Harm {
    pub const ALL: [Harm; 6] = [Harm::Bit, Harm::LeftOut, Harm::Doubled, Harm::CutOff, Harm::Behind, Harm::Count];

    pub fn name(self) -> &'static str {
        match self {
            Harm::Bit => "another bit",
            Harm::LeftOut => "bytes left out",
            Harm::Doubled => "bytes doubled",
            Harm::CutOff => "cut off",
            Harm::Behind => "bytes behind",
            Harm::Count => "another count",
        }
    }

    fn done_to(self, mut bytes: Vec<u8>, counts: &[usize], rng: &mut Rng) -> Vec<u8> {
        // Half of the places are near the front, where most bytes say what the others are.
        let near = if rng.once_in(2) { 48 } else { usize::MAX };
        let place = rng.below(bytes.len().min(near));
        let end = bytes.len().min(place + rng.pick(&[1, 1, 2, 4, 16, 18, 50]));
        match self {
            Harm::Bit => bytes[place] ^= 1 << rng.below(8),
            Harm::LeftOut => drop(bytes.drain(place..end)),
            Harm::Doubled => drop(bytes.splice(place..place, bytes[place..end].to_vec())),
            Harm::CutOff => bytes.truncate(place),
            Harm::Behind => bytes.extend((0..end - place).map(|_| rng.bits() as u8)),
            Harm::Count => {
                let bytes = bytes[rng.pick(counts)..].first_chunk_mut().expect("a count stands there");
                *bytes = another_count(u16::from_le_bytes(*bytes), rng).to_le_bytes();
            }
        }
        bytes
    }
}

/// Counts that a limit makes interesting.
const COUNTS: [u16; 13] = [0, 1, 2, 63, 64, 65, 255, 256, 257, 4_095, 4_096, 4_097, 65_535];

pub fn another_count(count: u16, rng: &mut Rng) -> u16 {
    match rng.below(3) {
        0 => count.wrapping_add(1),
        1 => count.wrapping_sub(1),
        _ => rng.pick(&COUNTS),
    }
}

/// Keeps these specimens of a seed apart from its others.
const FRAME_STREAM: u64 = 200;
const ANSWER_STREAM: u64 = 210;

/// A frame of any style, harmed.
pub fn harmed_frame(harm: Harm, seed: u64, index: u64) -> Vec<u8> {
    let rng = &mut Rng::new(seed, FRAME_STREAM + harm as u64, index);
    let frame = whole(rng);
    harm.done_to(frame.encode(), &frame_counts(&frame), rng)
}

/// What is printed for a frame, harmed.
pub fn harmed_answer(harm: Harm, printed: &[u8], seed: u64, index: u64) -> Vec<u8> {
    let rng = &mut Rng::new(seed, ANSWER_STREAM + harm as u64, index);
    harm.done_to(printed.to_vec(), &answer_counts(printed), rng)
}

/// Where counts stand in a frame.
fn frame_counts(frame: &Frame) -> Vec<usize> {
    let (mut counts, mut at) = (vec![42], 44);
    for part in &frame.parts {
        counts.push(at);
        at += 2;
        for ring in part {
            counts.push(at);
            at += 2 + 16 * ring.len();
        }
    }
    counts
}

/// Where counts, parts' numbers and positions stand in what is printed.
fn answer_counts(printed: &[u8]) -> Vec<usize> {
    let (mut counts, mut at) = (vec![1, 3], 5);
    let Some(Ok(Answer::Listed { parts, .. })) = Answer::decode(printed) else {
        return counts;
    };
    for part in parts {
        counts.push(at);
        at += 4;
        match part.listed {
            Listed::Unchanged => {}
            Listed::Overlay(_) => {
                counts.extend([at, at + 2]);
                at += 4;
            }
            Listed::Cut(rings) => {
                counts.push(at);
                at += 2;
                for cut in rings {
                    counts.push(at);
                    at += 2 + 18 * cut.ring.len();
                }
            }
        }
    }
    counts
}
