//! The frame reader of the port against the harness's own, the share that every test run takes.

#[test]
fn refusals_and_room_agree() {
    port::reader::compare(1, 20_000).assert_agreed(14 * 20_000);
}
