//! The vectors that programs replay hold every answer, the port gives each of them, and a wrong one is noticed.

use compare::vectors;
use port::replay::{replay_rings, replay_slices, Replay};

fn assert_whole(replay: &Replay) {
    assert_eq!(replay.differences, [""; 0]);
    assert!(replay.counts().iter().all(|&(_, count)| count > 0), "an answer is missing:\n{replay}");
}

/// Every vector replays, and another code of the last one differs, as does another count of numbers written.
fn assert_noticed(vectors: &[u8], replay: fn(&[u8]) -> Replay) {
    assert_whole(&replay(vectors));
    // The last vector is refused with 20: its code, and then the count, which is 0, are the last there is.
    let (code, written) = (vectors.len() - 12, vectors.len() - 4);
    assert_eq!(vectors[code..written], (-20_i64).to_le_bytes());
    let changed = |at: usize, bytes: &[u8]| {
        let mut changed = vectors.to_vec();
        changed[at..at + bytes.len()].copy_from_slice(bytes);
        replay(&changed).differences.len()
    };
    assert_eq!(changed(code, &(-21_i64).to_le_bytes()), 1);
    assert_eq!(changed(written, &2_u32.to_le_bytes()), 1);
}

#[test]
fn ring_calls_replay() {
    assert_noticed(&vectors::rings(1, 2), replay_rings);
}

#[test]
fn slice_calls_replay() {
    assert_noticed(&vectors::slices(1, 2), replay_slices);
}
