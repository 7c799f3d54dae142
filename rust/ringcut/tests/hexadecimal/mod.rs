//! The repository's examples, frames.hex and answers.hex: lines of hexadecimal digits, and the bytes that they stand for.

use std::fs;

/// The lines of one of the two files.
pub fn lines_of(name: &str) -> Vec<String> {
    let text = fs::read_to_string(format!("{}/../../examples/{name}", env!("CARGO_MANIFEST_DIR"))).unwrap();
    assert!(!text.is_empty(), "{name} has no line");
    text.lines().map(String::from).collect()
}

/// The bytes of a line, if it is pairs of hexadecimal digits.
pub fn bytes_of(line: &str) -> Option<Vec<u8>> {
    let digit = |character: u8| char::from(character).to_digit(16).map(|digit| digit as u8);
    let pairs = line.as_bytes().chunks(2).map(|pair| match *pair {
        [high, low] => Some(16 * digit(high)? + digit(low)?),
        _ => None,
    });
    pairs.collect()
}
