//! Damage to a frame's bytes.

use crate::rng::Rng;

/// Counts that a limit or a missing byte makes interesting.
const COUNTS: [u16; 14] = [0, 1, 2, 63, 64, 65, 255, 256, 257, 4_095, 4_096, 4_097, 5_000, 65_535];

/// Where the part count stands; behind it come the first ring count and the first coordinate count.
const PART_COUNT: usize = 42;

pub fn damage(mut frame: Vec<u8>, rng: &mut Rng) -> Vec<u8> {
    match rng.below(7) {
        0 => frame.truncate(rng.below(frame.len() + 1)),
        1 => frame.truncate(frame.len() - rng.below(20).min(frame.len())),
        2 => frame.extend((0..1 + rng.below(20)).map(|k| k as u8)),
        3 => {
            let k = rng.below(frame.len());
            frame[k] ^= 1 << rng.below(8);
        }
        4 => frame[rng.below(2)] = rng.below(9) as u8,
        5 => put_count(&mut frame, PART_COUNT + 2 * rng.below(3), rng.pick(&COUNTS)),
        _ => {
            let k = 44 + 2 * rng.below(frame.len() / 2);
            put_count(&mut frame, k, rng.pick(&COUNTS));
            frame.truncate(frame.len() - rng.pick(&[0, 0, 1, 2, 16]).min(frame.len()));
        }
    }
    frame
}

/// Writes over the count at `at`, if one can stand there.
fn put_count(frame: &mut [u8], at: usize, count: u16) {
    if let Some(bytes) = frame.get_mut(at..at + 2) {
        bytes.copy_from_slice(&count.to_le_bytes());
    }
}
