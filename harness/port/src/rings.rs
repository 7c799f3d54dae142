//! The ring call: the port against the Rust's `clip_ring`, every lent number and origin checked, and demand 3 and what has to hold of
//! origins on the same runs.

use compare::calls::{broken_in_ring_call, ring_label, styles};
use compare::campaign::{self, Campaign, Checked};
use formats::calls::{RingAfter, RingCall};
use formats::origins::CutRing;
use formats::Refusal;

use crate::{calls, promise};

/// `count` ring calls of each style.
pub fn compare(seed: u64, count: u64) -> Campaign {
    campaign::run("port ring calls", seed, count, &styles(), |style, index| {
        check(&generator::ring_call(style, seed, index))
    })
}

/// One call, held to the oracle's answer and to demand 3.
pub fn check(call: &RingCall) -> Checked {
    check_against(call, &oracle::ring_call(call))
}

/// One call, held to an answer, to what that answer leaves in the lent slices, to demand 3 and to what has to hold of origins.
pub fn check_against(call: &RingCall, expected: &Result<CutRing, Refusal>) -> Checked {
    let port = answer(call);
    if let Some(difference) = port.difference(&call.after(expected)) {
        return Err(format!("{call}: {difference}"));
    }
    let numbers = expected.as_ref().map_or(0, |cut| 2 * cut.ring.len());
    let broken = promise::broken(&call.bounds, &call.ring, &port.out[..numbers]);
    match broken.or_else(|| broken_in_ring_call(call, &port)) {
        Some(broken) => Err(format!("{call}: {broken}")),
        None => Ok(ring_label(expected)),
    }
}

/// The port's answer to a call, and the lent slices afterwards.
pub fn answer(call: &RingCall) -> RingAfter {
    let mut after = call.after(&Err(0));
    after.answer = calls::ring(&call.ring, &call.bounds, calls::lent_to_ring(&mut after));
    after
}
