//! Lines of hexadecimal digits on standard input.

use std::io::{self, BufRead, IsTerminal};

/// The lines of standard input without their ends. A carriage return at a line's end is taken for a part of the end: mail and some
/// editors put it there. Where standard input is a terminal, `waits_for` is said on standard error first.
pub fn of_standard_input(waits_for: &str) -> impl Iterator<Item = io::Result<Vec<u8>>> {
    let input = io::stdin().lock();
    if input.is_terminal() {
        eprintln!("{waits_for}");
    }
    input.split(b'\n').map(|line| {
        let mut line = line?;
        if line.last() == Some(&b'\r') {
            line.pop();
        }
        Ok(line)
    })
}

/// The bytes that pairs of hexadecimal digits of either case stand for, if the line is such pairs.
pub fn bytes_of(line: &[u8]) -> Option<Vec<u8>> {
    let digit = |character: u8| char::from(character).to_digit(16).map(|digit| digit as u8);
    let pairs = line.chunks(2).map(|pair| match *pair {
        [high, low] => Some(16 * digit(high)? + digit(low)?),
        _ => None,
    });
    pairs.collect()
}
