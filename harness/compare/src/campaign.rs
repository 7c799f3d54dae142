//! Runs one check on many specimens of each kind, on all cores, and counts what came of them.

use std::collections::BTreeMap;
use std::fmt;
use std::ops::Range;
use std::panic::{catch_unwind, AssertUnwindSafe};
use std::sync::atomic::{AtomicU64, Ordering};
use std::sync::Mutex;
use std::thread;

/// Specimens that a thread takes at a time.
const BLOCK: u64 = 250;

/// What a check says of one specimen: the answer both sides gave, or how they differ.
pub type Checked = Result<&'static str, String>;

/// What came of a campaign: for each kind, how often each answer was given.
pub struct Campaign {
    name: &'static str,
    seed: u64,
    counts: Vec<(&'static str, Answers)>,
    difference: Option<String>,
}

/// Checks the specimens 0 to `count` of every kind; the first difference ends the campaign.
pub fn run<K: Copy + Sync>(
    name: &'static str,
    seed: u64,
    count: u64,
    kinds: &[(&'static str, K)],
    check: impl Fn(K, u64) -> Checked + Sync,
) -> Campaign {
    let counts = kinds.iter().map(|&(kind, _)| (kind, BTreeMap::new())).collect();
    let campaign = Mutex::new(Campaign { name, seed, counts, difference: None });
    let blocks = count.div_ceil(BLOCK) * kinds.len() as u64;
    let next_block = AtomicU64::new(0);
    let work = || loop {
        let block = next_block.fetch_add(1, Ordering::Relaxed);
        if block >= blocks || campaign.lock().unwrap().difference.is_some() {
            break;
        }
        // Neighbouring blocks are of different kinds, so that a slow kind is shared out.
        let kind = (block % kinds.len() as u64) as usize;
        let start = block / kinds.len() as u64 * BLOCK;
        let (answers, difference) = check_block(start..count.min(start + BLOCK), |index| check(kinds[kind].1, index));
        campaign.lock().unwrap().add(kind, answers, difference);
    };
    thread::scope(|scope| {
        for _ in 0..thread::available_parallelism().map_or(1, usize::from) {
            scope.spawn(work);
        }
    });
    campaign.into_inner().unwrap()
}

/// How often each answer was given.
type Answers = BTreeMap<&'static str, u64>;

/// Checks a block up to its first difference, given with its index.
fn check_block(block: Range<u64>, check: impl Fn(u64) -> Checked) -> (Answers, Option<(u64, String)>) {
    let mut answers = Answers::new();
    for index in block {
        match checked(|| check(index)) {
            Ok(answer) => *answers.entry(answer).or_default() += 1,
            Err(difference) => return (answers, Some((index, difference))),
        }
    }
    (answers, None)
}

/// A panic of either side is a difference too.
fn checked(check: impl FnOnce() -> Checked) -> Checked {
    catch_unwind(AssertUnwindSafe(check)).unwrap_or_else(|_| Err("a side panicked".to_string()))
}

impl Campaign {
    fn add(&mut self, kind: usize, answers: Answers, difference: Option<(u64, String)>) {
        let (name, counts) = &mut self.counts[kind];
        for (answer, times) in answers {
            *counts.entry(answer).or_default() += times;
        }
        if let Some((index, how)) = difference {
            self.difference.get_or_insert(format!("{name}, seed {}, index {index}: {how}", self.seed));
        }
    }

    pub fn difference(&self) -> Option<&str> {
        self.difference.as_deref()
    }

    /// Prints what came of it, and panics unless both sides agreed on that many specimens.
    pub fn assert_agreed(&self, specimens: u64) {
        println!("{self}");
        assert_eq!(self.difference(), None);
        assert_eq!(self.agreed(), specimens);
    }

    /// How often an answer was given, in all kinds together.
    pub fn times(&self, answer: &str) -> u64 {
        self.counts.iter().filter_map(|(_, answers)| answers.get(answer)).sum()
    }

    /// How many specimens both sides agreed on.
    pub fn agreed(&self) -> u64 {
        self.counts.iter().flat_map(|(_, answers)| answers.values()).sum()
    }
}

/// One line: the total, then each kind with its answers; and one more line for a difference.
impl fmt::Display for Campaign {
    fn fmt(&self, f: &mut fmt::Formatter) -> fmt::Result {
        write!(f, "{}: seed {}, {} agree", self.name, self.seed, self.agreed())?;
        for (kind, answers) in &self.counts {
            let answers: Vec<String> = answers.iter().map(|(answer, times)| format!("{answer} {times}")).collect();
            write!(f, "; {kind}: {}", answers.join(", "))?;
        }
        match &self.difference {
            Some(difference) => write!(f, "\ndifference in {}: {difference}", self.name),
            None => Ok(()),
        }
    }
}
