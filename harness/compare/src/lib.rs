//! Compares the oracle with the second reading on what the generator makes, judges single cuts by it and mended rings beside it, and shows
//! that a mistaken reading is found.

pub mod calls;
pub mod campaign;
pub mod command;
pub mod cuts;
pub mod frames;
pub mod lines;
pub mod mends;
pub mod mistakes;
pub mod origins;
pub mod passes;
pub mod shallow;
pub mod shrink;
pub mod vectors;
pub mod worked;
pub mod worked_mends;

/// Bytes as lower-case hexadecimal digits.
pub fn hex(bytes: &[u8]) -> String {
    bytes.iter().map(|byte| format!("{byte:02x}")).collect()
}
