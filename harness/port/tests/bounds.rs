//! `TileBounds` of the port against the Rust, the share that every test run takes.

#[test]
fn methods_agree_on_any_bit_patterns() {
    port::bounds::compare(1, 500_000).assert_agreed(500_000);
}
