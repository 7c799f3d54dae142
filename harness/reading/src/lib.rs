//! A second reading of document 01 and of document 02's points 1, 3, 4, 5, 7, 8 and 12, written from their text alone: it shares no
//! code with the oracle. It can make one deliberate mistake, so that the generator can be shown to find it.

mod calls;
mod cut;
mod exact_crossing;
mod frame;
mod issues;
mod mend;
mod mistake;
mod multipolygon;
mod origins;
mod polygon;
mod program;
mod reason;
mod ring;
mod shared_point;
mod whole;

pub use calls::{Lent, PassCounts, PassInput, Slices};
pub use cut::{Cut, Side};
pub use exact_crossing::{Distance, PROMISED};
pub use issues::Issue;
pub use mistake::{Mistake, Place};
pub use origins::Made;
pub use polygon::{Flags, Routed};
pub use ring::Vertex;

/// Reads document 01, rightly or with one mistake.
#[derive(Clone, Copy, Debug)]
pub struct Reading {
    mistake: Option<Mistake>,
}

impl Reading {
    pub const RIGHT: Reading = Reading { mistake: None };

    /// Lets the rounded test alone tell which edges cross.
    pub const ROUNDED: Reading = Reading { mistake: Some(Mistake::RoundedTestAlone) };

    pub fn with(mistake: Mistake) -> Reading {
        Reading { mistake: Some(mistake) }
    }

    fn makes(&self, mistake: Mistake) -> bool {
        self.mistake == Some(mistake)
    }
}
