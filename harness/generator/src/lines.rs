//! Input of the program: lines of hexadecimal digits, right and wrong.

use crate::frames::{frame, Kind};
use crate::rng::Rng;

/// Keeps the lines of a seed apart from its frames.
const STREAM: u64 = 100;

/// A few lines, the last one finished or not; sometimes no input at all.
pub fn lines(seed: u64, index: u64) -> Vec<u8> {
    let rng = &mut Rng::new(seed, STREAM, index);
    let mut input = Vec::new();
    for _ in 0..rng.below(4) {
        input.extend(line(seed, rng));
        input.push(b'\n');
    }
    if rng.once_in(2) {
        input.extend(line(seed, rng));
    }
    input
}

fn line(seed: u64, rng: &mut Rng) -> Vec<u8> {
    match rng.below(12) {
        0 => Vec::new(),
        1 => (0..rng.below(8)).map(|_| rng.bits() as u8).filter(|&character| character != b'\n').collect(),
        2 => too_long(rng),
        _ => {
            let frame = frame(rng.pick(&Kind::ALL), seed, rng.bits()).frame;
            damaged(digits(&frame, rng), rng)
        }
    }
}

/// Lower-case digits, upper-case ones, or both mixed.
fn digits(frame: &[u8], rng: &mut Rng) -> Vec<u8> {
    let mut digits: Vec<u8> = frame.iter().flat_map(|byte| format!("{byte:02x}").into_bytes()).collect();
    match rng.below(4) {
        0 => digits.make_ascii_uppercase(),
        1 => digits.iter_mut().filter(|_| rng.once_in(2)).for_each(|digit| digit.make_ascii_uppercase()),
        _ => {}
    }
    digits
}

/// Mostly as it was; else one character left out, changed or added.
fn damaged(mut line: Vec<u8>, rng: &mut Rng) -> Vec<u8> {
    let at = rng.below(line.len() + 1);
    match rng.below(12) {
        0 => line.truncate(at),
        1 => line.insert(at, b'0'),
        2 if at < line.len() => line[at] = rng.pick(b"gG /:@`\0\xff\r"),
        3 => line.push(b'\r'),
        4 => line.insert(0, b' '),
        _ => {}
    }
    line
}

/// Lines around 10,240 characters and well over: all digits, an odd count, or one character wrong at the end.
fn too_long(rng: &mut Rng) -> Vec<u8> {
    let length = rng.pick(&[10_238, 10_239, 10_240, 10_241, 10_242, 20_000, 20_001]);
    let mut line = vec![b'0'; length];
    if rng.once_in(2) {
        line[length - 1] = b'x';
    }
    line
}
