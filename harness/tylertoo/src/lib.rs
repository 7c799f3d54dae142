//! The files of tylertoo's `crates/core/src`, unchanged, with stand-ins for the two modules they call in their own crate.
//! `build.rs` finds them and opens their private functions.

pub mod diagnostics;
mod pmtiles_writer;

include!(concat!(env!("OUT_DIR"), "/modules.rs"));
