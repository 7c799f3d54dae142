//! One pass of the ring cutter: the port against the Rust's `clip_ring_against_edge`, and against the second reading, which counts
//! its verdicts itself; every lent number and origin checked.

use compare::calls::styles;
use compare::campaign::{self, Campaign, Checked};
use compare::passes::{label, pass};
use formats::passes::{Edge, PassAfter, PassCall};
use reading::Reading;

use crate::probe::{self, PassBuffers};

/// Lengths of the slice that is lent for the count of verdicts, each with a number for Top: any over 2.
const LENT: [(usize, u8); 3] = [(0, 3), (1, 4), (2, 255)];

/// What stands in that slice before a pass; none counts so many.
pub const UNCOUNTED: usize = usize::MAX;

/// `count` passes of each style.
pub fn compare(seed: u64, count: u64) -> Campaign {
    campaign::run("port passes", seed, count, &styles(), |style, index| check(&generator::pass(style, seed, index)))
}

/// One pass, held to the oracle's answer and to the second reading's.
pub fn check(call: &PassCall) -> Checked {
    let oracle = oracle::pass(call);
    check_against(call, &call.after(oracle.as_ref()))?;
    check_against(call, &pass(&Reading::RIGHT, call)).map_err(|difference| format!("second reading: {difference}"))?;
    Ok(label(oracle.as_ref()))
}

/// One pass, held to an answer and to what that leaves, with each length of slice for the count.
pub fn check_against(call: &PassCall, expected: &PassAfter) -> Result<(), String> {
    for (length, top) in LENT {
        let edge = if call.edge == Edge::Top { top } else { call.edge as u8 };
        let (mut out, mut out_origins) = (call.out.clone(), call.out_origins.clone());
        let mut verdicts = counted(length, None);
        let lent = PassBuffers { out: &mut out, out_origins: &mut out_origins, verdicts: &mut verdicts };
        let answer = probe::clip_ring_against_edge(&call.ring, &call.origins, edge, &call.bounds, lent);
        if verdicts != counted(length, expected.verdicts) {
            return Err(format!("{call}: verdicts {verdicts:?} and {:?}", expected.verdicts));
        }
        let port = PassAfter { answer, verdicts: expected.verdicts, out, out_origins };
        if let Some(difference) = port.difference(expected) {
            return Err(format!("{call}: {difference}"));
        }
    }
    Ok(())
}

/// A slice lent for the count, with the count, if there is one, in its first number, if it has one.
fn counted(length: usize, count: Option<usize>) -> Vec<usize> {
    let mut slice = vec![UNCOUNTED; length];
    if let (Some(first), Some(count)) = (slice.first_mut(), count) {
        *first = count;
    }
    slice
}
