//! The safe calls of crate `ringcut` against the Rust, the mending one against the second reading, on fewer calls than the codes that they
//! read: the answer and every lent number and origin.

use std::fmt::Display;

use compare::calls::styles;
use compare::campaign::{self, Checked};
use compare::frames::kinds;
use compare::mends;
use formats::calls::{RingCall, SliceCall};
use formats::mends::{MendAfter, MendCall};
use formats::reason::Reason;
use generator::Specimen;
use port::calls::{lent, lent_to_ring, named};
use reading::Reading;
use ringcut::{cut_frame, cut_polygon, cut_ring, mend, Answer, Flags, Refusal};

const SEED: u64 = 3;
const COUNT: u64 = 1_000;

fn refusal_code(refusal: Refusal) -> i64 {
    -i64::from(refusal.number())
}

fn answer_code(answer: Answer) -> i64 {
    match answer {
        Answer::Nothing => 0,
        Answer::Dropped => 1,
        Answer::Unchanged => 2,
        Answer::Cut { rings } => 4 + 65_536 * rings as i64,
        Answer::Overlay(reason) => {
            let (first, second) = reason.positions();
            5 + Reason { number: reason.number(), first: first as u32, second: second as u32 }.code()
        }
    }
}

fn verdict(call: &impl Display, difference: Option<String>) -> Checked {
    difference.map_or(Ok("same"), |difference| Err(format!("{call}: {difference}")))
}

fn check_ring(call: &RingCall) -> Checked {
    let mut after = call.after(&Err(0));
    let answered = cut_ring(&call.ring, named(&call.bounds), lent_to_ring(&mut after));
    after.answer = answered.map_or_else(refusal_code, |count| count as i64);
    verdict(call, after.difference(&call.after(&oracle::ring_call(call))))
}

fn check_slice(call: &SliceCall) -> Checked {
    let &SliceCall { assume_simple, skip_boundary_fallback, ref bounds, buffer, .. } = call;
    let mut after = call.after(&Err(0));
    let flags = Flags { assume_simple, skip_boundary_fallback };
    let answered = cut_polygon(flags, named(bounds), buffer, &call.coords, &call.lengths, lent(&mut after));
    after.answer = answered.map_or_else(refusal_code, answer_code);
    let guard_count = answered.map_or(0, Answer::guard_count);
    assert_eq!(guard_count, u16::from(after.answer == 1));
    verdict(call, after.difference(&call.after(&oracle::slice_call(call))))
}

fn check_mend(call: &MendCall) -> Checked {
    let mut out = call.out.clone();
    let answer = mend(&call.ring, &mut out).map_or_else(refusal_code, |count| count as i64);
    verdict(call, MendAfter { answer, out }.difference(&mends::mend(&Reading::RIGHT, call)))
}

fn check_frame(Specimen { frame, room }: &Specimen) -> Checked {
    let mut out = vec![0; *room];
    let answered = cut_frame(frame, &mut out).map(|len| out[..len].to_vec()).map_err(Refusal::number);
    if answered != oracle::answer(frame, *room) {
        return Err(format!("room {room}, frame {frame:?}: {answered:?}"));
    }
    Ok("same")
}

#[test]
fn safe_frame_calls_agree() {
    let campaign = campaign::run("safe frame calls", SEED, COUNT, &kinds(), |kind, index| {
        check_frame(&generator::frame(kind, SEED, index))
    });
    campaign.assert_agreed(14 * COUNT);
}

#[test]
fn safe_ring_calls_agree() {
    let campaign = campaign::run("safe ring calls", SEED, COUNT, &styles(), |style, index| {
        check_ring(&generator::ring_call(style, SEED, index))
    });
    campaign.assert_agreed(11 * COUNT);
}

#[test]
fn safe_slice_calls_agree() {
    let campaign = campaign::run("safe slice calls", SEED, COUNT, &styles(), |style, index| {
        check_slice(&generator::slice_call(style, SEED, index))
    });
    campaign.assert_agreed(11 * COUNT);
}

#[test]
fn safe_mending_calls_agree() {
    let campaign = campaign::run("safe mends", SEED, COUNT, &mends::kinds(), |kind, index| {
        check_mend(&generator::mend(kind, SEED, index))
    });
    campaign.assert_agreed(12 * COUNT);
}
