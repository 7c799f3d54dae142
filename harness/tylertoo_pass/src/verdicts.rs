//! The vertices that the traced copy of the cutter judged on this thread: each verdict in order, by where its vertex stands.

use std::cell::RefCell;

use geo::Coord;

thread_local! {
    static JUDGED: RefCell<Vec<*const Coord<f64>>> = const { RefCell::new(Vec::new()) };
}

/// Forgets this thread's verdicts and gives their vertices back.
pub fn take_judged() -> Vec<*const Coord<f64>> {
    JUDGED.with(RefCell::take)
}

pub(crate) fn tell(coord: &Coord<f64>) {
    JUDGED.with_borrow_mut(|judged| judged.push(coord));
}
