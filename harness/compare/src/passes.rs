//! Single passes: vertices, their origins, the count of verdicts and the lent outputs afterwards. The oracle's answer with what
//! `formats` says it leaves stands on one side, the second reading's, with its own counter and what it leaves itself, on the other.

use formats::passes::{Edge, PassAfter, PassCall, Passed, NO_ROOM};
use formats::room::most_passed;
use formats::{flat, Coord};
use reading::{PassCounts, PassInput, Reading, Side};

use crate::calls::styles;
use crate::campaign::{self, Campaign, Checked};

/// Rings with the verdicts that a pass works out on each, at any line of the bounds 0, 0, 10, 10.
pub const WORKED: [(&str, &[Coord], usize); 8] = [
    ("no vertex", &[], 0),
    ("one vertex", &[(5.0, 5.0)], 2),
    ("a vertex twice", &[(5.0, 5.0), (5.0, 5.0)], 2),
    ("a vertex twice, its zeros of either sign", &[(0.0, -0.0), (-0.0, 0.0)], 2),
    ("one vertex of NaN", &[(f64::NAN, f64::NAN)], 2),
    ("a vertex of NaN twice", &[(f64::NAN, f64::NAN), (f64::NAN, f64::NAN)], 3),
    ("a closed triangle", &[(-5.0, 5.0), (15.0, -5.0), (5.0, 15.0), (-5.0, 5.0)], 4),
    ("an open triangle", &[(-5.0, 5.0), (15.0, -5.0), (5.0, 15.0)], 4),
];

/// A pass over one of them, with the room that it asks for and so much more. The origins of its vertices begin at 100.
pub fn worked_call(ring: &[Coord], edge: Edge, spare: usize) -> PassCall {
    let most = most_passed(ring.len());
    PassCall {
        ring: flat(ring),
        origins: (100..65_532).cycle().take(ring.len()).collect(),
        edge,
        bounds: [0.0, 0.0, 10.0, 10.0],
        out: vec![7.0; 2 * most + spare],
        out_origins: vec![7; most + spare],
    }
}

/// `count` passes of each style.
pub fn compare(seed: u64, count: u64) -> Campaign {
    campaign::run("passes", seed, count, &styles(), |style, index| check(&generator::pass(style, seed, index)))
}

fn check(call: &PassCall) -> Checked {
    let oracle = oracle::pass(call);
    match call.after(oracle.as_ref()).difference(&pass(&Reading::RIGHT, call)) {
        Some(difference) => Err(format!("{call}: oracle and reading differ in {difference}")),
        None => Ok(label(oracle.as_ref())),
    }
}

/// What came of a pass, in a word.
pub fn label(passed: Option<&Passed>) -> &'static str {
    match passed {
        None => "no room",
        Some(Passed { verdicts: 0, .. }) => "no vertex",
        Some(Passed { cut, .. }) if cut.ring.is_empty() => "all out",
        Some(_) => "some in",
    }
}

/// The second reading's answer to a pass, and the output as it leaves it.
pub fn pass(reading: &Reading, call: &PassCall) -> PassAfter {
    let (mut out, mut out_origins) = (call.out.clone(), call.out_origins.clone());
    let side = Side::ORDER[call.edge as usize];
    let input = PassInput { ring: &call.ring, origins: &call.origins, side, bounds: call.bounds };
    match reading.pass_call(&input, &mut out, &mut out_origins) {
        None => PassAfter { answer: NO_ROOM, verdicts: None, out, out_origins },
        Some(PassCounts { vertices, verdicts }) => {
            PassAfter { answer: vertices, verdicts: Some(verdicts), out, out_origins }
        }
    }
}
