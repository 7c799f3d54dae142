//! Program input: the oracle's lines against the second reading's.

use reading::Reading;

use crate::campaign::{self, Campaign, Checked};

/// `count` inputs of a few lines each.
pub fn compare(seed: u64, count: u64) -> Campaign {
    campaign::run("lines", seed, count, &[("input", ())], |(), index| check(&generator::lines(seed, index)))
}

fn check(input: &[u8]) -> Checked {
    let (oracle, reading) = (oracle::lines(input), Reading::RIGHT.lines(input));
    if oracle == reading {
        return Ok(label(&oracle));
    }
    let text = String::from_utf8_lossy;
    Err(format!("input {:?}, oracle {:?}, reading {:?}", text(input), text(&oracle), text(&reading)))
}

/// What is printed, in a word.
pub fn label(printed: &[u8]) -> &'static str {
    match printed.iter().filter(|&&byte| byte == b'\n').count() {
        0 => "no line",
        1 => "one line",
        _ => "several lines",
    }
}
