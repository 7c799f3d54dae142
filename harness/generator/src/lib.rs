//! The seeded generator: frames, whole, harmed and to be built, answers that nobody gave, program input, ring calls, slice calls, passes,
//! single cuts, rings to mend, pairs of edges and bounds. The same seed, kind and index give the same specimen always, so a difference is
//! found again from three numbers.

mod answers;
mod bounds;
mod buildings;
mod calls;
mod collinear;
mod corners;
mod cuts;
mod damage;
mod exteriors;
mod frames;
mod harm;
mod holes;
mod limits;
mod lines;
mod meetings;
mod mends;
mod numbers;
mod outlines;
mod pairs;
mod passes;
mod rng;
mod scene;
mod shallow;
mod tangles;

pub use answers::{answer, AnswerKind};
pub use bounds::bounds;
pub use buildings::{building, BuildingKind};
pub use calls::{ring_call, slice_call};
pub use cuts::{cut, CutKind};
pub use exteriors::exterior;
pub use frames::{frame, random_frame, Kind, Specimen};
pub use harm::{harmed_answer, harmed_frame, Harm};
pub use lines::lines;
pub use meetings::Pair;
pub use mends::{mend, MendKind};
pub use pairs::{pair, PairKind};
pub use passes::pass;
pub use scene::Style;
