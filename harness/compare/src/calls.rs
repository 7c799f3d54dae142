//! Ring calls and slice calls: answers and lent slices afterwards. The oracle's answers with what `formats` says they leave
//! stand on one side, the second reading's answers with what it leaves itself on the other. The origins that it leaves are looked at
//! besides.

use formats::calls::{RingAfter, RingCall, SliceAfter, SliceAnswer, SliceCall};
use formats::origins::CutRing;
use formats::{pairs, Refusal};
use generator::{Kind, Style};
use reading::{Flags, Lent, Reading, Slices};

use crate::campaign::{self, Campaign};
use crate::frames::{reason_label, refusal_label};
use crate::origins::{broken, broken_rings, buffered};

pub fn styles() -> Vec<(&'static str, Style)> {
    Style::ALL.iter().map(|&style| (Kind::Drawn(style).name(), style)).collect()
}

/// `count` ring calls of each style.
pub fn compare_ring_calls(seed: u64, count: u64) -> Campaign {
    campaign::run("ring calls", seed, count, &styles(), |style, index| {
        let call = generator::ring_call(style, seed, index);
        let oracle = oracle::ring_call(&call);
        let reading = ring_call(&Reading::RIGHT, &call);
        if let Some(difference) = call.after(&oracle).difference(&reading) {
            return Err(format!("{call}: oracle and reading differ in {difference}"));
        }
        match broken_in_ring_call(&call, &reading) {
            Some(broken) => Err(format!("{call}, both sides: {broken}")),
            None => Ok(ring_label(&oracle)),
        }
    })
}

pub fn ring_label(answer: &Result<CutRing, Refusal>) -> &'static str {
    match answer {
        Err(refusal) => refusal_label(*refusal),
        Ok(cut) if cut.ring.is_empty() => "empty",
        Ok(_) => "ring",
    }
}

/// The ring of so many coordinates that stands in an output from one coordinate on, with its origins.
fn cut_from(out: &[f64], out_origins: &[u16], from: usize, length: usize) -> CutRing {
    let end = from + length;
    CutRing { ring: pairs(&out[2 * from..2 * end]), origins: out_origins[from..end].to_vec() }
}

/// What does not hold of the origins that a ring call leaves.
pub fn broken_in_ring_call(call: &RingCall, after: &RingAfter) -> Option<&'static str> {
    let count = usize::try_from(after.answer).ok()?;
    let cut = cut_from(&after.out, &after.out_origins, 0, count);
    broken(&call.bounds, &pairs(&call.ring), &cut)
}

/// What does not hold of the origins that a slice call leaves.
pub fn broken_in_slice_call(call: &SliceCall, after: &SliceAfter) -> Option<&'static str> {
    let rings = if after.answer & 0xff == 4 { after.answer as usize >> 16 } else { 0 };
    let mut at = 0;
    let next_ring = |&length: &u32| {
        let from = at;
        at += length as usize;
        cut_from(&after.out, &after.out_origins, from, length as usize)
    };
    let cut: Vec<CutRing> = after.out_lengths[..rings].iter().map(next_ring).collect();
    broken_rings(&buffered(&call.bounds, call.buffer), &call.rings().ok()?, &cut)
}

/// `count` slice calls of each style.
pub fn compare_slice_calls(seed: u64, count: u64) -> Campaign {
    campaign::run("slice calls", seed, count, &styles(), |style, index| {
        let call = generator::slice_call(style, seed, index);
        let oracle = oracle::slice_call(&call);
        let reading = slice_call(&Reading::RIGHT, &call);
        if let Some(difference) = call.after(&oracle).difference(&reading) {
            return Err(format!("{call}: oracle and reading differ in {difference}"));
        }
        match broken_in_slice_call(&call, &reading) {
            Some(broken) => Err(format!("{call}, both sides: {broken}")),
            None => Ok(slice_label_with_reason(&oracle)),
        }
    })
}

/// A slice call's answer in a word, an overlay by its reason.
pub fn slice_label_with_reason(answer: &Result<SliceAnswer, Refusal>) -> &'static str {
    match answer {
        Ok(SliceAnswer::Overlay(reason)) => reason_label(reason.number),
        _ => slice_label(answer),
    }
}

pub fn slice_label(answer: &Result<SliceAnswer, Refusal>) -> &'static str {
    match answer {
        Err(refusal) => refusal_label(*refusal),
        Ok(answer) => label(answer),
    }
}

fn label(answer: &SliceAnswer) -> &'static str {
    match answer {
        SliceAnswer::Nothing => "nothing",
        SliceAnswer::Dropped => "dropped",
        SliceAnswer::Unchanged => "unchanged",
        SliceAnswer::Cut(_) => "cut",
        SliceAnswer::Overlay(_) => "overlay",
    }
}

/// The second reading's answer to a ring call, and the lent slices as it leaves them.
pub fn ring_call(reading: &Reading, call: &RingCall) -> RingAfter {
    let mut lent = Lent {
        scratch: call.scratch.clone(),
        origin_scratch: call.origin_scratch.clone(),
        out: call.out.clone(),
        out_origins: call.out_origins.clone(),
        ..Lent::default()
    };
    let answer = reading.ring_call(&call.ring, call.bounds, &mut lent);
    let Lent { scratch, origin_scratch, out, out_origins, .. } = lent;
    RingAfter { answer, scratch, origin_scratch, out, out_origins }
}

/// The second reading's answer to a slice call, and the lent slices as it leaves them.
pub fn slice_call(reading: &Reading, call: &SliceCall) -> SliceAfter {
    let slices = Slices {
        flags: Flags { assume_simple: call.assume_simple, skip_boundary_fallback: call.skip_boundary_fallback },
        bounds: call.bounds,
        buffer: call.buffer,
        coords: &call.coords,
        lengths: &call.lengths,
    };
    let mut lent = Lent {
        scratch: call.scratch.clone(),
        origin_scratch: call.origin_scratch.clone(),
        order: call.order.clone(),
        out: call.out.clone(),
        out_lengths: call.out_lengths.clone(),
        out_origins: call.out_origins.clone(),
    };
    let answer = reading.slice_call(&slices, &mut lent);
    let Lent { scratch, origin_scratch, order, out, out_lengths, out_origins } = lent;
    SliceAfter { answer, scratch, origin_scratch, order, out, out_lengths, out_origins }
}
