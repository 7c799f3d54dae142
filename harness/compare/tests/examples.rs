//! The repository's example frames: the Rust and the second reading both turn them into the example answers, examples/README.md
//! says in words what each line is answered, and every answer that a line can get is among them.

use std::collections::BTreeSet;
use std::fs;
use std::path::Path;

use formats::answer::{Answer, Listed};
use formats::from_hex;
use reading::Reading;

fn example(name: &str) -> String {
    let file = Path::new(env!("CARGO_MANIFEST_DIR")).join("../../examples").join(name);
    fs::read_to_string(&file).unwrap_or_else(|error| panic!("{}: {error}", file.display()))
}

/// The example answers, a line each.
fn answers() -> Vec<Result<Answer, u8>> {
    let answer = |line: &str| Answer::decode(&from_hex(line.as_bytes()).ok()?);
    example("answers.hex").lines().map(|line| answer(line).unwrap_or_else(|| panic!("{line} is no answer"))).collect()
}

#[test]
fn example_frames_give_the_example_answers() {
    let (frames, answers) = (example("frames.hex"), example("answers.hex"));
    assert_eq!(oracle::lines(frames.as_bytes()), answers.as_bytes(), "the Rust");
    assert_eq!(Reading::RIGHT.lines(frames.as_bytes()), answers.as_bytes(), "the reading");
}

#[test]
fn the_table_has_a_row_for_each_line_with_its_answer() {
    let readme = example("README.md");
    let row = |row: &str| match row.split('|').map(str::trim).collect::<Vec<_>>()[..] {
        ["", line, _, answer, ""] => line.parse().ok().map(|line: usize| (line, answer.to_string())),
        _ => None,
    };
    let in_words = |answer: Result<Answer, u8>| match answer {
        Err(refusal) => format!("refused, {refusal}"),
        Ok(answer) => answer.to_string(),
    };
    let rows: Vec<(usize, String)> = readme.lines().filter_map(row).collect();
    let expected: Vec<(usize, String)> = (1..).zip(answers().into_iter().map(in_words)).collect();
    assert_eq!(rows, expected);
}

#[test]
fn every_answer_is_shown() {
    let mut shown = BTreeSet::new();
    for answer in answers() {
        match answer {
            Err(refusal) => shown.extend([format!("refused, {refusal}")]),
            Ok(Answer::Listed { guard_count, parts }) => {
                shown.extend((guard_count > 0).then(|| "some listed, some counted".to_string()));
                shown.extend(parts.iter().map(|part| match &part.listed {
                    Listed::Unchanged => "part unchanged".to_string(),
                    Listed::Cut(rings) if rings.len() > 1 => "cut with a hole".to_string(),
                    Listed::Cut(_) => "cut".to_string(),
                    Listed::Overlay(reason) => format!("overlay, reason {}", reason.number),
                }));
            }
            Ok(whole) => shown.extend([whole.to_string()]),
        }
    }
    let whole = ["nothing", "nothing; guard count 2", "dropped; guard count 1", "unchanged"];
    let listed = ["part unchanged", "cut", "cut with a hole", "some listed, some counted"];
    let mut every: BTreeSet<String> = whole.into_iter().chain(listed).map(String::from).collect();
    every.extend((1..=10).map(|reason| format!("overlay, reason {reason}")));
    every.extend((10..=18).map(|refusal| format!("refused, {refusal}")));
    assert_eq!(shown, every);
}
