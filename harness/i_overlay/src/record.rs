//! The calls made on this thread, and the marked pieces they were answered with.

use std::cell::RefCell;

pub type Contour = Vec<[f64; 2]>;

/// Exterior first, then holes.
pub type Shape = Vec<Contour>;

#[derive(Clone, Debug)]
pub struct OverlayCall {
    pub subject: Vec<Shape>,
    pub clip: Vec<Shape>,
}

thread_local! {
    static CALLS: RefCell<Vec<OverlayCall>> = const { RefCell::new(Vec::new()) };
}

/// A quiet NaN whose low half is the number of the call.
const MARK: u64 = 0x7ff8_0b0e_0000_0000;

/// Forgets this thread's calls and gives them back.
pub fn take_calls() -> Vec<OverlayCall> {
    CALLS.with(RefCell::take)
}

/// Keeps a call and answers its marked piece.
pub(crate) fn record(call: OverlayCall) -> Contour {
    CALLS.with_borrow_mut(|calls| {
        calls.push(call);
        marked_piece(calls.len() - 1)
    })
}

/// A triangle: its first corner is a number, so that closing it appends one corner and no more.
fn marked_piece(call: usize) -> Contour {
    let mark = f64::from_bits(MARK | call as u64);
    vec![[0.0, 0.0], [mark, mark], [1.0, 0.0]]
}

/// The number of the call that answered the piece with this exterior, if an overlay did.
pub fn call_of_piece(exterior: &[[f64; 2]]) -> Option<usize> {
    let bits = exterior.get(1)?[0].to_bits();
    (bits >> 32 == MARK >> 32).then_some((bits & 0xffff_ffff) as usize)
}
