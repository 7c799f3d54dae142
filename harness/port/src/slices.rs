//! The slice call: the port against the Rust's `clip_polygon`, every lent number and origin checked, and what has to hold of origins
//! on the same runs.

use compare::calls::{broken_in_slice_call, slice_label, slice_label_with_reason, styles};
use compare::campaign::{self, Campaign, Checked};
use formats::calls::{SliceAfter, SliceAnswer, SliceCall};
use formats::Refusal;

use crate::calls::{self, Flags};

/// Numbers that set a flag: any but 0.
const SET: [u8; 4] = [1, 2, 128, 255];

/// `count` slice calls of each style.
pub fn compare(seed: u64, count: u64) -> Campaign {
    campaign::run("port slice calls", seed, count, &styles(), |style, index| {
        let call = generator::slice_call(style, seed, index);
        let expected = oracle::slice_call(&call);
        check_against(&call, SET[index as usize % SET.len()], &expected)?;
        Ok(slice_label_with_reason(&expected))
    })
}

/// One call, its flags set by the given number, held to the oracle's answer.
pub fn check(call: &SliceCall, set: u8) -> Checked {
    check_against(call, set, &oracle::slice_call(call))
}

/// One call, its flags set by the given number, held to an answer, to what that answer leaves in the lent slices, and to what has to
/// hold of origins.
pub fn check_against(call: &SliceCall, set: u8, expected: &Result<SliceAnswer, Refusal>) -> Checked {
    let port = answer(call, set);
    if let Some(difference) = port.difference(&call.after(expected)) {
        return Err(format!("{call}: {difference}"));
    }
    match broken_in_slice_call(call, &port) {
        Some(broken) => Err(format!("{call}: {broken}")),
        None => Ok(slice_label(expected)),
    }
}

/// The port's answer to a call, and the lent slices afterwards.
pub fn answer(call: &SliceCall, set: u8) -> SliceAfter {
    let flag = |is_set: bool| if is_set { set } else { 0 };
    let flags =
        Flags { assume_simple: flag(call.assume_simple), skip_boundary_fallback: flag(call.skip_boundary_fallback) };
    let mut after = call.after(&Err(0));
    let lent = calls::lent(&mut after);
    after.answer = calls::polygon(flags, &call.bounds, call.buffer, &call.coords, &call.lengths, lent);
    after
}
