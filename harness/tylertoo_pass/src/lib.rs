//! The cutter of tylertoo's `crates/core/src` twice, with its single pass opened: `unchanged`, and `traced`, with one statement put
//! in that tells `verdicts` which vertex is judged. `build.rs` lays both out. They are not in crate `tylertoo`, since a second
//! caller of the pass changes how the cutter there is compiled, which is measured.

pub mod verdicts;

use tylertoo::tile;

include!(concat!(env!("OUT_DIR"), "/modules.rs"));
