//! Calls that mend a ring. The source has none: what is right is said by the second reading, and any answer, the reading's too, is held
//! to what must be true of it by a judge that asks neither the reading nor the port. The judge's closing is that of `Polygon::new`, and
//! its nearness that of the source's own test for repeated corners, so that what is left to it is the order of the refusals, the walk
//! and the output.

use formats::calls::MOST_COORDINATES;
use formats::mends::{MendAfter, MendCall, FEWEST_COORDINATES};
use formats::{pairs, same_bits, same_coord, Coord, Refusal};
use generator::MendKind;
use reading::Reading;

use crate::campaign::{self, Campaign};
use crate::frames::refusal_label;

/// The kinds of rings, with their names.
pub fn kinds() -> [(&'static str, MendKind); MendKind::ALL.len()] {
    MendKind::ALL.map(|kind| (kind.name(), kind))
}

/// The second reading's answers, judged: `count` rings of each kind.
pub fn compare(seed: u64, count: u64) -> Campaign {
    campaign::run("mends", seed, count, &kinds(), |kind, index| {
        let call = generator::mend(kind, seed, index);
        let after = mend(&Reading::RIGHT, &call);
        match broken(&call, &after) {
            Some(broken) => Err(format!("{call}, the reading: {broken}")),
            None => Ok(label(&call, &after)),
        }
    })
}

/// An answer in a word.
pub fn label(call: &MendCall, after: &MendAfter) -> &'static str {
    match usize::try_from(after.answer) {
        Err(_) => refusal_label(after.answer.unsigned_abs() as u8),
        Ok(count) if 2 * count == call.room() => "none dropped",
        Ok(_) => "some dropped",
    }
}

/// The second reading's answer to a call, and the output as it leaves it.
pub fn mend(reading: &Reading, call: &MendCall) -> MendAfter {
    let mut out = call.out.clone();
    let answer = reading.mend_call(&call.ring, &mut out);
    MendAfter { answer, out }
}

/// What is broken where the Rust finds a repeated corner in a mended ring.
pub const RUST_FINDS_REPEAT: &str = "the Rust finds a repeated corner";

/// What does not hold of an answer and of the output afterwards. What a call leaves alone is compared bit for bit, a NaN's bits too.
pub fn broken(call: &MendCall, after: &MendAfter) -> Option<&'static str> {
    let closed = oracle::closed(&pairs(&call.ring));
    if let Some(refusal) = refusal(call, &closed) {
        return if after.answer != -i64::from(refusal) {
            Some("another answer than the first refusal that applies")
        } else if !same_bits(&after.out, &call.out) {
            Some("a refusal has written")
        } else {
            None
        };
    }
    let Some(mended) = after.mended() else {
        return Some("refused where no refusal applies, or more coordinates than the output has");
    };
    let behind = mended.len();
    broken_ring(&closed, &pairs(mended)).or_else(|| {
        let stays = same_bits(&after.out[behind..], &call.out[behind..]);
        (!stays).then_some("written past the answer")
    })
}

/// The first refusal that applies, each by its own test.
fn refusal(call: &MendCall, closed: &[Coord]) -> Option<Refusal> {
    if call.ring.len() % 2 == 1 {
        Some(19)
    } else if closed.len() > MOST_COORDINATES {
        Some(20)
    } else if call.out.len() < 2 * closed.len() {
        Some(22)
    } else if !four_remain(closed) {
        Some(26)
    } else {
        None
    }
}

/// Whether between the first coordinate and the closing one there is one that is not near the first and, behind it, one that is not near
/// that.
fn four_remain(closed: &[Coord]) -> bool {
    let [first, between @ .., _] = closed else {
        return false;
    };
    let apart = |from: Coord, among: &[Coord]| among.iter().position(|&coord| !oracle::are_near(coord, from));
    apart(*first, between).is_some_and(|second| apart(between[second], &between[second + 1..]).is_some())
}

/// What does not hold of a mended ring: its ends are those of the closed ring, its neighbours are not near, by the Rust's own word on the
/// whole of it, and what it lacks is near what it has.
fn broken_ring(closed: &[Coord], mended: &[Coord]) -> Option<&'static str> {
    let same_end = |a: Option<&Coord>, b: Option<&Coord>| a.zip(b).is_some_and(|(&a, &b)| same_coord(a, b));
    if mended.len() < FEWEST_COORDINATES {
        Some("fewer than four coordinates")
    } else if !same_end(closed.first(), mended.first()) {
        Some("another first coordinate")
    } else if !same_end(closed.last(), mended.last()) {
        Some("another closing coordinate")
    } else if oracle::has_repeated(mended) {
        Some(RUST_FINDS_REPEAT)
    } else if !lacks_near_ones_only(closed, mended) {
        Some("not the closed ring without coordinates that are near the last kept")
    } else {
        None
    }
}

/// Whether each coordinate of the closed ring before the closing one is the next of the mended ring or is near the last that was. It can't
/// be both, as the mended ring has no neighbours that are near.
fn lacks_near_ones_only(closed: &[Coord], mended: &[Coord]) -> bool {
    let mut kept = mended[..mended.len() - 1].iter().copied();
    let (mut last, mut next) = (None, kept.next());
    for &coord in &closed[..closed.len() - 1] {
        if next.is_some_and(|next| same_coord(next, coord)) {
            (last, next) = (next, kept.next());
        } else if !last.is_some_and(|last| oracle::are_near(coord, last)) {
            return false;
        }
    }
    next.is_none()
}
