//! The program `ringcut` against the Rust, the share that every test run takes: random input, document 01's three lines, the
//! repository's examples, and lines longer than any block.

use port::lines;

const WHOLE: usize = usize::MAX;

#[test]
fn lines_agree() {
    lines::compare(1, 3_000).assert_agreed(3_000);
}

#[test]
fn examples_agree() {
    let examples = include_bytes!("../../../examples/frames.hex");
    assert_eq!(lines::check(examples, WHOLE), Ok("several lines"));
    assert_eq!(lines::check(examples, 1), Ok("several lines"));
}

#[test]
fn every_end_of_an_input_agrees() {
    for (input, label) in [("", "no line"), ("\n", "one line"), ("0", "one line"), ("03\n0g", "several lines")] {
        assert_eq!(lines::check(input.as_bytes(), WHOLE), Ok(label), "{input:?}");
    }
}

/// A line of a million digits, right up to its end or wrong there: 11 and 10.
#[test]
fn a_long_line_agrees() {
    let mut line = vec![b'0'; 1_000_000];
    assert_eq!(lines::check(&line, WHOLE), Ok("one line"));
    line.push(b'\n');
    assert_eq!(lines::check(&line, WHOLE), Ok("one line"));
    line[999_999] = b'x';
    assert_eq!(lines::check(&line, WHOLE), Ok("one line"));
}
