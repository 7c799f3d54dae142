//! Replays kept calls and answers through the port, and counts them as the repository's own replaying program does: a line for
//! each answer, and one for the calls that differ. What such a call leaves is worked out from its answer; the count of numbers
//! that are kept as written has to be that too.

use std::fmt;

use compare::campaign::Checked;
use formats::vectors::{decode_rings, decode_slices};

use crate::{rings, slices};

const RING_ANSWERS: &[&str] = &["ring", "empty", "19", "20", "21", "22"];
const SLICE_ANSWERS: &[&str] = &["nothing", "dropped", "unchanged", "cut", "overlay", "19", "20", "21", "22"];

pub struct Replay {
    counts: Vec<(&'static str, u64)>,
    pub differences: Vec<String>,
}

pub fn replay_rings(vectors: &[u8]) -> Replay {
    let checked = decode_rings(vectors).into_iter().map(|((call, answer), written)| {
        check_written(&call, written, call.written(&answer))?;
        rings::check_against(&call, &answer)
    });
    Replay::new(RING_ANSWERS, checked)
}

pub fn replay_slices(vectors: &[u8]) -> Replay {
    let checked = decode_slices(vectors).into_iter().map(|((call, answer), written)| {
        check_written(&call, written, call.written(&answer))?;
        slices::check_against(&call, 1, &answer)
    });
    Replay::new(SLICE_ANSWERS, checked)
}

fn check_written(call: &impl fmt::Display, kept: usize, written: usize) -> Result<(), String> {
    if kept == written {
        return Ok(());
    }
    Err(format!("{call}: {kept} numbers of the output are kept as written, and {written} are"))
}

impl Replay {
    fn new(answers: &[&'static str], checked: impl Iterator<Item = Checked>) -> Replay {
        let counts = answers.iter().map(|&answer| (answer, 0)).collect();
        let mut replay = Replay { counts, differences: Vec::new() };
        for checked in checked {
            match checked {
                Ok(label) => replay.count(label),
                Err(difference) => replay.differences.push(difference),
            }
        }
        replay
    }

    fn count(&mut self, label: &str) {
        let found = self.counts.iter_mut().find(|(answer, _)| *answer == label);
        found.unwrap_or_else(|| panic!("{label} is no answer of such a call")).1 += 1;
    }

    /// How often each answer was given.
    pub fn counts(&self) -> &[(&'static str, u64)] {
        &self.counts
    }
}

impl fmt::Display for Replay {
    fn fmt(&self, f: &mut fmt::Formatter) -> fmt::Result {
        self.counts.iter().try_for_each(|(answer, count)| writeln!(f, "{answer} {count}"))?;
        writeln!(f, "differ {}", self.differences.len())
    }
}
