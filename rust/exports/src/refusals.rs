//! The refusals: their numbers and texts in the Rust crate, which the C header and `scripts/words` have for their users too.

use std::collections::{BTreeMap, BTreeSet};
use std::ops::RangeInclusive;

use crate::paths::{HEADER, REFUSALS, WORDS};
use crate::words::{closing, split, starts_with, words};
use crate::Files;

/// The refusal that no call gives, so that the header doesn't have it: only the program reads digits.
const OF_THE_PROGRAM: &str = "Digits";
/// The refusals that the program prints, so that `scripts/words` says them.
const PRINTED: RangeInclusive<u8> = 10..=18;

/// What a file says, each under the name of what it says it of.
type Said = BTreeMap<String, String>;

/// Where the header or `scripts/words` says other than the Rust crate.
pub fn mistakes(files: &Files) -> Vec<String> {
    let rust = words(&files[REFUSALS]);
    let header = words(&files[HEADER]);
    let rust_numbers = numbers(&rust, "Refusal");
    let rust_texts = texts(&rust, &["Refusal", ":", ":", "_", "=", ">"]);
    let header_numbers = numbers(&header, "ringcut_refusal");
    let header_texts = texts(&header, &["case", "-", "_", ":", "return"]);

    let mut mistakes = differences(HEADER, "number", &header_numbers, &in_header(&rust_numbers));
    mistakes.extend(differences(HEADER, "text", &header_texts, &in_header(&rust_texts)));
    mistakes.extend(differences(WORDS, "text", &script_texts(&files[WORDS]), &printed(&rust_numbers, &rust_texts)));
    mistakes
}

/// The numbers of an enum's values, in C or in Rust.
fn numbers(words: &[String], of: &str) -> Said {
    let Some(at) = (0..words.len()).find(|&at| starts_with(&words[at..], &["enum", of, "{"])) else {
        return Said::new();
    };
    let open = at + 2;
    let values = split(&words[open + 1..closing(words, open).unwrap_or(words.len())], ",");
    let named = values.into_iter().filter_map(|value| match value {
        [.., name, equals, number] if equals == "=" => Some((name.clone(), number.clone())),
        [.., name] => Some((name.clone(), "not given".to_string())),
        [] => None,
    });
    named.collect()
}

/// The literals that stand behind these words. The word at the place of `_` is the name.
fn texts(words: &[String], before: &[&str]) -> Said {
    let named = words.windows(before.len() + 1).filter_map(|window| {
        let (literal, found) = window.split_last()?;
        let text = literal.strip_prefix('"')?.strip_suffix('"')?;
        let mut pairs = found.iter().zip(before);
        let (name, _) = pairs.clone().find(|(_, expected)| **expected == "_")?;
        pairs.all(|(word, expected)| *expected == "_" || word == expected).then(|| (name.clone(), text.to_string()))
    });
    named.collect()
}

/// The texts of `scripts/words`, where `\047` is an apostrophe.
fn script_texts(script: &str) -> Said {
    let named = script.lines().filter_map(|line| {
        let (name, literal) = line.trim().split_once(" = ")?;
        let text = literal.strip_prefix('"')?.strip_suffix('"')?;
        name.starts_with("refusals[").then(|| (name.to_string(), text.replace("\\047", "'")))
    });
    named.collect()
}

/// What the Rust crate says, under the names that the header has.
fn in_header(said: &Said) -> Said {
    let of_calls = said.iter().filter(|(name, _)| *name != OF_THE_PROGRAM);
    of_calls.map(|(name, what)| (format!("RINGCUT_REFUSED{}", with_underlines(name)), what.clone())).collect()
}

/// `PartCount` as `_PART_COUNT`.
fn with_underlines(name: &str) -> String {
    let mut written = String::new();
    for letter in name.chars() {
        if letter.is_uppercase() {
            written.push('_');
        }
        written.push(letter.to_ascii_uppercase());
    }
    written
}

/// The texts that the Rust crate has of the refusals that the program prints, under the names of `scripts/words`.
fn printed(numbers: &Said, texts: &Said) -> Said {
    let printed = numbers.iter().filter(|(_, number)| number.parse().is_ok_and(|number| PRINTED.contains(&number)));
    let named = printed.filter_map(|(name, number)| Some((format!("refusals[{number}]"), texts.get(name)?.clone())));
    named.collect()
}

fn differences(path: &str, what: &str, here: &Said, there: &Said) -> Vec<String> {
    let names = here.keys().chain(there.keys()).collect::<BTreeSet<_>>();
    let differing = names.into_iter().filter(|name| here.get(*name) != there.get(*name));
    let told = differing.map(|name| {
        let [here, there] = [here, there].map(|said| said.get(name).map_or("missing", String::as_str));
        format!("{path}: {name}: its {what} is `{here}`, by {REFUSALS} it is `{there}`")
    });
    told.collect()
}
