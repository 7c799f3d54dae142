//! A text of C, Rust or Rattle as words: names and numbers, literals in quotation marks, and every other character by itself.

/// The words of a text, comments left out.
pub fn words(text: &str) -> Vec<String> {
    let text = without_comments(text);
    let mut words: Vec<String> = Vec::new();
    let (mut rest, mut in_name) = (text.as_str(), false);
    while let Some(character) = rest.chars().next() {
        let length = if character == '"' { literal_length(rest) } else { character.len_utf8() };
        let (piece, behind) = rest.split_at(length);
        let of_name = character.is_alphanumeric() || character == '_';
        if of_name && in_name {
            words.last_mut().unwrap().push_str(piece);
        } else if !character.is_whitespace() {
            words.push(piece.to_string());
        }
        (rest, in_name) = (behind, of_name);
    }
    words
}

/// A comment counts as a blank.
pub fn without_comments(text: &str) -> String {
    let (mut kept, mut rest) = (String::new(), text);
    while let Some(at) = ["\"", "//", "/*"].iter().filter_map(|beginning| rest.find(beginning)).min() {
        kept.push_str(&rest[..at]);
        let found = &rest[at..];
        let length = if found.starts_with('"') { literal_length(found) } else { comment_length(found) };
        kept.push_str(if found.starts_with('"') { &found[..length] } else { " " });
        rest = &found[length..];
    }
    kept + rest
}

/// How long the comment is that a text begins with. The end of its line is not part of it.
fn comment_length(text: &str) -> usize {
    let (end, closing) = if text.starts_with("//") { ("\n", "") } else { ("*/", "*/") };
    text[2..].find(end).map_or(text.len(), |length| 2 + length + closing.len())
}

/// How long the literal is that a text begins with, its quotation marks counted.
fn literal_length(text: &str) -> usize {
    let mut escaped = false;
    let closing = text.char_indices().skip(1).find(|&(_, character)| {
        let closes = character == '"' && !escaped;
        escaped = character == '\\' && !escaped;
        closes
    });
    closing.map_or(text.len(), |(at, mark)| at + mark.len_utf8())
}

/// What stands between the separators, where it is not empty. A separator within brackets doesn't separate.
pub fn split<'a>(words: &'a [String], separator: &str) -> Vec<&'a [String]> {
    let mut depth = 0;
    let parts = words.split(|word| {
        depth += change_of_depth(word);
        depth == 0 && word == separator
    });
    parts.filter(|part| !part.is_empty()).collect()
}

/// The place of the bracket that closes the one at `open`.
pub fn closing(words: &[String], open: usize) -> Option<usize> {
    let mut depth = 0;
    (open..words.len()).find(|&at| {
        depth += change_of_depth(&words[at]);
        depth == 0
    })
}

/// What stands between the commas of a list in brackets, and what follows it.
pub fn parameters(words: &[String]) -> Option<(Vec<&[String]>, &[String])> {
    let close = closing(words, 0).filter(|_| words[0] == "(")?;
    Some((split(&words[1..close], ","), &words[close + 1..]))
}

fn change_of_depth(word: &str) -> i32 {
    match word {
        "(" | "[" | "{" => 1,
        ")" | "]" | "}" => -1,
        _ => 0,
    }
}

/// The words in one line, as C and Rust are written.
pub fn written(words: &[String]) -> String {
    let mut line = String::new();
    for word in words {
        if !(line.is_empty() || line.ends_with('*') || word == ":") {
            line.push(' ');
        }
        line.push_str(word);
    }
    line
}

pub fn starts_with(words: &[String], beginning: &[&str]) -> bool {
    words.len() >= beginning.len() && words.iter().zip(beginning).all(|(word, expected)| word == expected)
}
