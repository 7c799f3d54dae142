//! The issues of an exterior and where they are: the port's finder, scan and sweep against the Rust's own predicates, asked about
//! two coordinates and two edges at a time, and the work slices past the ring's share unchanged.

use compare::calls::styles;
use compare::campaign::{self, Campaign, Checked};
use formats::shown::shortened;
use formats::{flat, same_numbers, Coord};
use oracle::Issue;

use crate::probe::{self, NOT_LOOKED_FOR};

/// Numbers and positions lent past the ring's share; they have to stay.
const SPARE: usize = 3;

const MARK: f64 = 0.5;

/// `count` rings of each style.
pub fn compare(seed: u64, count: u64) -> Campaign {
    campaign::run("issues", seed, count, &styles(), |style, index| check(&generator::exterior(style, seed, index)))
}

/// One ring, with the crossing test and without. The Rust closes it as it makes a polygon of it; the port is lent it closed.
pub fn check(lent: &[Coord]) -> Checked {
    let ring = &closed(lent)[..];
    let (issue, issue_if_simple) = (oracle::issue(lent, false), oracle::issue(lent, true));
    let pair = if ring.is_empty() { NOT_LOOKED_FOR } else { pair_code(oracle::first_crossing(ring)) };
    let answers = [
        ("issue", found(ring, false)?, issue_code(issue)),
        ("issue, assume_simple", found(ring, true)?, issue_code(issue_if_simple)),
        ("scan", probe::scan_pairs(&flat(ring)), pair),
        ("sweep", swept(ring)?, pair),
    ];
    match answers.iter().find(|(_, port, oracle)| port != oracle) {
        Some((name, port, oracle)) => Err(format!("{name} of {}: {port:#x} and {oracle:#x}", shortened(ring))),
        None => Ok(label(issue)),
    }
}

fn label(issue: Option<Issue>) -> &'static str {
    match issue {
        None => "sound",
        Some(Issue::Short) => "short",
        Some(Issue::Repeated(_)) => "repeated",
        Some(Issue::Crossing(..)) => "crossing",
    }
}

/// An issue as the port's finder answers it.
pub fn issue_code(issue: Option<Issue>) -> u64 {
    match issue {
        None => 0,
        Some(Issue::Short) => 1,
        Some(Issue::Repeated(position)) => located(2, position, 0),
        Some(Issue::Crossing(lower, higher)) => located(3, lower, higher),
    }
}

fn pair_code(pair: Option<(usize, usize)>) -> u64 {
    pair.map_or(0, |(lower, higher)| located(1, lower as u32, higher as u32))
}

fn located(found: u64, first: u32, second: u32) -> u64 {
    found + (u64::from(first) << 8) + (u64::from(second) << 32)
}

/// By document 01's rule: a first coordinate with a NaN equals no last one.
fn closed(ring: &[Coord]) -> Vec<Coord> {
    let mut ring = ring.to_vec();
    if ring.first() != ring.last() {
        ring.push(ring[0]);
    }
    ring
}

fn found(ring: &[Coord], assume_simple: bool) -> Result<u64, String> {
    with_work(ring, |numbers, work, order| probe::find_issue(numbers, assume_simple, work, order))
}

fn swept(ring: &[Coord]) -> Result<u64, String> {
    with_work(ring, probe::sweep_pairs)
}

/// Lends work slices that are a little too long, and holds them to their ends.
fn with_work(ring: &[Coord], call: impl Fn(&[f64], &mut [f64], &mut [u32]) -> u64) -> Result<u64, String> {
    let n = ring.len();
    let (mut work, mut order) = (vec![MARK; 2 * n + SPARE], vec![u32::MAX; n + SPARE]);
    let answer = call(&flat(ring), &mut work, &mut order);
    if !same_numbers(&work[2 * n..], &[MARK; SPARE]) || order[n..] != [u32::MAX; SPARE] {
        return Err(format!("written past the ring's share, {}", shortened(ring)));
    }
    Ok(answer)
}
