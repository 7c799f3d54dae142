//! The mending call. The Rust has none: the port is held to the second reading, in its answer and in every number of the output; what it
//! answers to the judge that asks neither, and to the Rust's own word on repeated corners; and what it has mended is mended again.

use compare::campaign::{self, Campaign, Checked};
use compare::mends::{broken, kinds, label, mend};
use formats::calls::MOST_COORDINATES;
use formats::mends::{MendAfter, MendCall};
use formats::{flat, pairs, same_numbers};
use reading::Reading;
use ringcut::raw;

/// `count` rings of each kind.
pub fn compare(seed: u64, count: u64) -> Campaign {
    campaign::run("port mends", seed, count, &kinds(), |kind, index| check(&generator::mend(kind, seed, index)))
}

/// What the port gives of one call: its answer with the output afterwards and, where the ring was mended, the same for what came of it.
#[derive(Clone, Debug)]
pub struct Given {
    pub after: MendAfter,
    pub again: Option<MendAfter>,
}

/// One call, and another on what it has mended.
pub fn check(call: &MendCall) -> Checked {
    check_given(call, &given(call))
}

/// What is given of one call, held to the second reading, to the judge and to the Rust; and what is given of it once more.
pub fn check_given(call: &MendCall, Given { after, again }: &Given) -> Checked {
    if let Some(difference) = after.difference(&mend(&Reading::RIGHT, call)) {
        return Err(format!("{call}: port and reading differ in {difference}"));
    }
    if let Some(broken) = broken(call, after) {
        return Err(format!("{call}: {broken}"));
    }
    match after.mended().and_then(|mended| broken_again(mended, again.as_ref())) {
        Some(broken) => Err(format!("{call}: {broken}")),
        None => Ok(label(call, after)),
    }
}

pub fn given(call: &MendCall) -> Given {
    let after = answer(call);
    let again = after.mended().map(again);
    Given { after, again }
}

/// The port's answer to a call, and the output afterwards.
pub fn answer(call: &MendCall) -> MendAfter {
    let mut out = call.out.clone();
    let answer = raw::mend(&call.ring, &mut out);
    MendAfter { answer, out }
}

/// The port's answer to what it has mended, lent once more with one coordinate more of room.
pub fn again(mended: &[f64]) -> MendAfter {
    answer(&MendCall { ring: mended.to_vec(), out: vec![0.5; mended.len() + 2] })
}

/// What does not hold of a mended ring that was mended again: none is dropped. The call closes the ring, so that one whose first coordinate
/// holds a NaN, which equals none, has it appended once more; where it had as many coordinates as a ring may have it is refused for that.
fn broken_again(mended: &[f64], again: Option<&MendAfter>) -> Option<&'static str> {
    let Some(again) = again else {
        return Some("not mended again");
    };
    let mut ring = pairs(mended);
    let (x, y) = ring[0];
    if x.is_nan() || y.is_nan() {
        ring.push((x, y));
    }
    let is_too_long = ring.len() > MOST_COORDINATES;
    let answer = if is_too_long { -20 } else { ring.len() as i64 };
    if again.answer != answer {
        Some("mended again, another count is answered")
    } else if !is_too_long && !same_numbers(&again.out[..2 * ring.len()], &flat(&ring)) {
        Some("mended again, it is another ring")
    } else {
        None
    }
}
