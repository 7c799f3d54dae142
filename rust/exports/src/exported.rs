//! The functions that a Rattle file exports, and how C and Rust declare such functions.

use crate::declared::Declaration;
use crate::words::{parameters, starts_with, words, written};

pub struct Export {
    pub name: String,
    pub has_requires: bool,
    values: Vec<Value>,
    result: Option<Number>,
}

/// A value that crosses.
struct Value {
    name: String,
    number: Number,
    passed: Passed,
}

enum Passed {
    Itself,
    PointerToRead,
    PointerToWrite,
}

/// A type of numbers: its name in Rattle and Rust, and in C.
type Number = (&'static str, &'static str);

const NUMBERS: [Number; 13] = [
    ("bool", "bool"),
    ("u8", "uint8_t"),
    ("u16", "uint16_t"),
    ("u32", "uint32_t"),
    ("u64", "uint64_t"),
    ("usize", "size_t"),
    ("i8", "int8_t"),
    ("i16", "int16_t"),
    ("i32", "int32_t"),
    ("i64", "int64_t"),
    ("isize", "ptrdiff_t"),
    ("f32", "float"),
    ("f64", "double"),
];

/// How an export begins. A static library is made of no other function.
const BEGINNING: [&str; 11] = ["#", "[", "unsafe", "(", "no_mangle", ")", "]", "pub", "extern", "\"C\"", "fn"];
/// Words that have to do with exports: written in another way than `BEGINNING` they can't be read here.
const RESERVED: [&str; 3] = ["no_mangle", "export_name", "extern"];

/// The exports of a Rattle file.
pub fn exports(text: &str) -> Vec<Result<Export, String>> {
    let words = words(text);
    let mut exports = Vec::new();
    let mut at = 0;
    while at < words.len() {
        if starts_with(&words[at..], &BEGINNING) {
            at += BEGINNING.len();
            // Contract and body end before the next function begins, wherever that is.
            let end = words[at..].iter().position(|word| word == "fn").map_or(words.len(), |length| at + length);
            exports.push(Export::read(&words[at..end]));
        } else if RESERVED.contains(&words[at].as_str()) {
            exports
                .push(Err(format!("`{}`: an export is written `#[unsafe(no_mangle)] pub extern \"C\" fn`", words[at])));
        }
        at += 1;
    }
    exports
}

impl Export {
    /// Reads what stands behind `fn`.
    fn read(function: &[String]) -> Result<Export, String> {
        let (name, rest) = function.split_first().ok_or("an export has no name")?;
        let (parameters, behind) = parameters(rest).ok_or_else(|| format!("{name}: its parameters are not read"))?;
        let mut values = Vec::new();
        for parameter in parameters {
            let crossing = values_of(parameter);
            values.extend(
                crossing.ok_or_else(|| format!("{name}: parameter `{}` is not known to cross", written(parameter)))?,
            );
        }
        let result = if starts_with(behind, &["-", ">"]) {
            let answer = &behind[2];
            Some(number(answer).ok_or_else(|| format!("{name}: a result of type `{answer}` is not known to cross"))?)
        } else {
            None
        };
        Ok(Export { name: name.clone(), has_requires: behind.iter().any(|word| word == "requires"), values, result })
    }

    /// As C declares it.
    pub fn in_c(&self) -> Declaration {
        let parameter = |Value { name, number: (_, number), passed }: &Value| match passed {
            Passed::Itself => format!("{number} {name}"),
            Passed::PointerToRead => format!("const {number} *{name}"),
            Passed::PointerToWrite => format!("{number} *{name}"),
        };
        self.declared(parameter, self.result.map_or("void", |(_, number)| number))
    }

    /// As Rust declares it.
    pub fn in_rust(&self) -> Declaration {
        let parameter = |Value { name, number: (number, _), passed }: &Value| match passed {
            Passed::Itself => format!("{name}: {number}"),
            Passed::PointerToRead => format!("{name}: *const {number}"),
            Passed::PointerToWrite => format!("{name}: *mut {number}"),
        };
        self.declared(parameter, self.result.map_or("()", |(number, _)| number))
    }

    fn declared(&self, parameter: impl Fn(&Value) -> String, result: &str) -> Declaration {
        let parameters = self.values.iter().map(parameter).collect();
        Declaration { name: self.name.clone(), parameters, result: result.to_string() }
    }
}

/// What a parameter crosses as: a slice as a pointer and a length, an array or a single number that is lent as a pointer alone.
fn values_of(parameter: &[String]) -> Option<Vec<Value>> {
    let parameter = parameter.iter().map(String::as_str).collect::<Vec<_>>();
    let [name, ":", kind @ ..] = parameter.as_slice() else { return None };
    let (passed, lent) = match kind {
        ["&", "mut", lent @ ..] => (Passed::PointerToWrite, lent),
        ["&", lent @ ..] => (Passed::PointerToRead, lent),
        of_number => (Passed::Itself, of_number),
    };
    let (of_number, is_slice) = match (&passed, lent) {
        (_, [of_number]) => (of_number, false),
        (Passed::Itself, _) => return None,
        (_, ["[", of_number, "]"]) => (of_number, true),
        (_, ["[", of_number, ";", .., "]"]) => (of_number, false),
        _ => return None,
    };
    let mut values = vec![Value { name: name.to_string(), number: number(of_number)?, passed }];
    if is_slice {
        values.push(Value { name: format!("{name}_len"), number: number("usize")?, passed: Passed::Itself });
    }
    Some(values)
}

fn number(name: &str) -> Option<Number> {
    NUMBERS.into_iter().find(|(in_rust, _)| *in_rust == name)
}
