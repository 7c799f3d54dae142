//! The Rust and the second reading agree, and the rings that the reading mends are as the judge has them: the share that every test run
//! takes.

use compare::{calls, frames, lines, mends, passes};

const SEED: u64 = 1;

#[test]
fn frames_agree() {
    frames::compare(SEED, 20_000).assert_agreed(280_000);
}

#[test]
fn lines_agree() {
    lines::compare(SEED, 20_000).assert_agreed(20_000);
}

#[test]
fn ring_calls_agree() {
    calls::compare_ring_calls(SEED, 5_000).assert_agreed(55_000);
}

#[test]
fn slice_calls_agree() {
    calls::compare_slice_calls(SEED, 5_000).assert_agreed(55_000);
}

#[test]
fn passes_agree() {
    passes::compare(SEED, 10_000).assert_agreed(110_000);
}

#[test]
fn mended_rings_are_as_they_must_be() {
    mends::compare(SEED, 10_000).assert_agreed(120_000);
}
