//! What the examples `explain` and `picture` have in common. This folder is no example by itself.

pub mod lines;
pub mod number;
pub mod ring;
pub mod words;
