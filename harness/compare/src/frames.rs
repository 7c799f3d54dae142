//! Frames: the oracle's bytes against the second reading's, whose origins are looked at besides.

use std::panic::catch_unwind;

use generator::{Kind, Specimen};
use reading::Reading;

use crate::campaign::{self, Campaign, Checked};
use crate::hex;
use crate::origins::broken_frame;
use crate::shrink::shrink;

pub fn kinds() -> Vec<(&'static str, Kind)> {
    Kind::ALL.iter().map(|&kind| (kind.name(), kind)).collect()
}

/// `count` frames of each kind.
pub fn compare(seed: u64, count: u64) -> Campaign {
    campaign::run("frames", seed, count, &kinds(), |kind, index| check(&generator::frame(kind, seed, index)))
}

fn check(specimen: &Specimen) -> Checked {
    let answers = Answers::to(specimen);
    if !answers.differ() {
        let broken = answers.reading.as_ref().ok().and_then(|bytes| broken_frame(&specimen.frame, bytes));
        return match broken {
            Some(broken) => Err(format!("frame {}, both sides: {broken}", hex(&specimen.frame))),
            None => Ok(label(&answers.reading)),
        };
    }
    let smallest = shrink(specimen.clone(), |specimen| Answers::to(specimen).differ());
    let Answers { oracle, reading } = Answers::to(&smallest);
    Err(format!(
        "room {}, frame {}, oracle {}, reading {}",
        smallest.room,
        hex(&smallest.frame),
        oracle.map_or_else(|| "panicked".to_string(), |answer| shown(&answer)),
        shown(&reading),
    ))
}

type Answer = Result<Vec<u8>, u8>;

struct Answers {
    /// None where the Rust panicked, or where its parts put together differ from its whole run.
    oracle: Option<Answer>,
    reading: Answer,
}

impl Answers {
    fn to(Specimen { frame, room }: &Specimen) -> Answers {
        Answers {
            oracle: catch_unwind(|| oracle::answer(frame, *room)).ok(),
            reading: Reading::RIGHT.answer(frame, *room),
        }
    }

    fn differ(&self) -> bool {
        self.oracle.as_ref() != Some(&self.reading)
    }
}

fn shown(answer: &Answer) -> String {
    answer.as_ref().map_or_else(|refusal| format!("refusal {refusal}"), |bytes| hex(bytes))
}

/// An answer in a word or two; a list is named after its first part, an overlay after its reason.
pub fn label(answer: &Answer) -> &'static str {
    match answer {
        Err(refusal) => refusal_label(*refusal),
        Ok(bytes) => match bytes[0] {
            0 => "nothing",
            1 => "dropped",
            2 => "unchanged",
            _ => match bytes[7] {
                2 => "part unchanged",
                4 => "cut",
                _ => reason_label(bytes[8]),
            },
        },
    }
}

/// Document 02's reasons 1 to 10.
pub fn reason_label(number: u8) -> &'static str {
    const LABELS: [&str; 10] = [
        "reason 1",
        "reason 2",
        "reason 3",
        "reason 4",
        "reason 5",
        "reason 6",
        "reason 7",
        "reason 8",
        "reason 9",
        "reason 10",
    ];
    LABELS[usize::from(number) - 1]
}

pub fn refusal_label(refusal: u8) -> &'static str {
    const LABELS: [&str; 13] = ["10", "11", "12", "13", "14", "15", "16", "17", "18", "19", "20", "21", "22"];
    match refusal {
        26 => "26",
        _ => LABELS[usize::from(refusal) - 10],
    }
}
