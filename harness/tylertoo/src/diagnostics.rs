//! Stand-in for `diagnostics`: it counts the geometries that the clip guard dropped.

use std::cell::Cell;

pub enum Diagnostic {
    ClipGuardDropped { count: u64 },
}

#[derive(Default)]
pub struct Diagnostics {
    guard_count: Cell<u64>,
}

impl Diagnostics {
    pub fn record(&self, diagnostic: Diagnostic) {
        let Diagnostic::ClipGuardDropped { count } = diagnostic;
        self.guard_count.set(self.guard_count.get() + count);
    }

    pub fn guard_count(&self) -> u64 {
        self.guard_count.get()
    }
}
