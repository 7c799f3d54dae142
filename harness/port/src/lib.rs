//! The port, called through its static libraries, against the oracle.

pub mod bounds;
pub mod calls;
pub mod cuts;
pub mod frames;
pub mod issues;
pub mod lines;
pub mod mends;
pub mod pairs;
pub mod passes;
pub mod probe;
pub mod promise;
pub mod reader;
pub mod replay;
pub mod rings;
pub mod slices;
pub mod values;
