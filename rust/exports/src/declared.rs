//! The functions that a C header or a Rust file declares. What can't be read is an error, so that nothing is passed over.

use crate::words::{closing, parameters, split, starts_with, without_comments, words, written};

/// A function in the words of the language that declares it.
pub struct Declaration {
    pub name: String,
    pub parameters: Vec<String>,
    pub result: String,
}

/// The functions that a C header declares. An inline function is the header's own, and no library has it.
pub fn in_header(text: &str) -> Vec<Result<Declaration, String>> {
    let words = without_inline_functions(words(&without_directives(text)));
    let first_bracket = |item: &[String]| item.iter().find(|word| ["(", "{"].contains(&word.as_str())).cloned();
    let types_left_out = split(&words, ";").into_iter().filter(|item| first_bracket(item).as_deref() != Some("{"));
    types_left_out.map(|item| in_c(item).ok_or_else(|| unreadable(item))).collect()
}

fn without_inline_functions(mut words: Vec<String>) -> Vec<String> {
    let mut at = 0;
    while at < words.len() {
        match last_of_inline_function(&words[at..]) {
            Some(last) => drop(words.drain(at..=at + last)),
            None => at += 1,
        }
    }
    words
}

/// Where the inline function ends that words begin with. Without a body it is none.
fn last_of_inline_function(words: &[String]) -> Option<usize> {
    starts_with(words, &["static", "inline"]).then_some(())?;
    let open = words.iter().position(|word| word == "(")?;
    let body = closing(words, open)? + 1;
    closing(words, body).filter(|_| words[body] == "{")
}

/// A header without its directives, and without what it has for C++ alone.
fn without_directives(text: &str) -> String {
    let mut kept = String::new();
    let mut for_cplusplus = false;
    for line in without_comments(text).replace("\\\n", " ").lines() {
        if let Some(directive) = line.trim_start().strip_prefix('#') {
            for_cplusplus = directive.trim() == "ifdef __cplusplus";
        } else if !for_cplusplus {
            kept.push_str(line);
            kept.push('\n');
        }
    }
    kept
}

fn in_c(item: &[String]) -> Option<Declaration> {
    let open = item.iter().position(|word| word == "(")?;
    let (name, result) = item[..open].split_last()?;
    let (mut parameters, behind) = parameters(&item[open..])?;
    parameters.retain(|parameter| *parameter != ["void"]);
    behind.is_empty().then(|| Declaration::new(name, &parameters, written(result)))
}

/// The functions of a Rust file's `extern "C"` blocks.
pub fn in_extern_blocks(text: &str) -> Vec<Result<Declaration, String>> {
    let words = words(text);
    let mut functions = Vec::new();
    for at in 0..words.len() {
        if starts_with(&words[at..], &["extern", "\"C\"", "{"]) {
            let open = at + 2;
            let block = &words[open + 1..closing(&words, open).unwrap_or(words.len())];
            functions.extend(split(block, ";").into_iter().map(|item| in_rust(item).ok_or_else(|| unreadable(item))));
        }
    }
    functions
}

fn in_rust(item: &[String]) -> Option<Declaration> {
    let keyword = item.iter().position(|word| word == "fn")?;
    let (name, rest) = item[keyword + 1..].split_first()?;
    let (parameters, behind) = parameters(rest)?;
    let result = match behind {
        [] => "()".to_string(),
        _ => starts_with(behind, &["-", ">"]).then(|| written(&behind[2..]))?,
    };
    Some(Declaration::new(name, &parameters, result))
}

fn unreadable(item: &[String]) -> String {
    format!("`{}`: this is not read as a function's declaration", written(item))
}

impl Declaration {
    fn new(name: &str, parameters: &[&[String]], result: String) -> Declaration {
        Declaration {
            name: name.to_string(),
            parameters: parameters.iter().map(|words| written(words)).collect(),
            result,
        }
    }
}
