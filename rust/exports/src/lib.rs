//! Holds texts of the repository to each other that no proof and no compiler compares: what C and Rust programs declare to what the
//! Rattle crates export, the refusals that users read to those of the Rust crate, and the version to itself, wherever it stands.
//!
//! Nothing in Rattle calls an export, and contracts go by the parameters' names. So a flag that crosses as a u32 where the header
//! says `uint8_t`, two parameters exchanged, or a `requires` that no caller is held to would be proved all the same. Here the
//! texts are compared instead: each export is written out as C and as Rust would declare it, and that is what must stand there.

mod declared;
mod exported;
pub mod paths;
mod refusals;
mod versions;
mod words;

use std::collections::BTreeMap;
use std::path::Path;
use std::{fs, io};

use declared::Declaration;
use exported::Export;
use paths::{
    CALLS_EDIT, CALLS_VERSION, CHANGES, CRATE_VERSION, HEADER, MANIFEST, PYTHON, RAW, README, REFUSALS, WORDS,
};

/// Files by their paths from the repository's root.
pub type Files = BTreeMap<String, String>;

const CRATES: &str = "crates";
const CALLS: &str = "crates/ringcut_calls/";

/// What is read beside the code of the Rattle crates.
const OTHERS: [&str; 11] =
    [HEADER, RAW, REFUSALS, MANIFEST, CRATE_VERSION, WORDS, PYTHON, README, CHANGES, CALLS_VERSION, CALLS_EDIT];

/// The files that are compared: the code of every crate, and those beside it.
pub fn read(root: &Path) -> io::Result<Files> {
    let mut files = Files::new();
    for path in OTHERS {
        files.insert(path.to_string(), fs::read_to_string(root.join(path))?);
    }
    read_rattle(root, CRATES, &mut files)?;
    Ok(files)
}

/// What the toolchain makes of a crate, in the crate's folder `out`, is left aside: copies of the code are among it.
fn read_rattle(root: &Path, folder: &str, files: &mut Files) -> io::Result<()> {
    for entry in fs::read_dir(root.join(folder))? {
        let entry = entry?;
        let path = format!("{folder}/{}", entry.file_name().to_string_lossy());
        if is_made(&path) {
            continue;
        }
        if entry.file_type()?.is_dir() {
            read_rattle(root, &path, files)?;
        } else if path.ends_with(".rt") {
            files.insert(path, fs::read_to_string(entry.path())?);
        }
    }
    Ok(())
}

/// Whether a path is `crates/NAME/out`.
fn is_made(path: &str) -> bool {
    let folders = path.split('/').collect::<Vec<_>>();
    matches!(folders.as_slice(), [CRATES, _, "out"])
}

/// What is wrong, each with its file and what it is wrong of.
pub fn mistakes(files: &Files) -> Vec<String> {
    [declaration_mistakes(files), refusals::mistakes(files), versions::mistakes(files)].concat()
}

/// What is wrong with exports and declarations, each with its file, its function and, where it is one's, its parameter.
pub fn declaration_mistakes(files: &Files) -> Vec<String> {
    let mut mistakes = Vec::new();
    let mut calls = Vec::new();
    for (path, text) in files.iter().filter(|(path, _)| path.ends_with(".rt")) {
        for export in exported::exports(text) {
            match export {
                Err(why) => mistakes.push(format!("{path}: {why}")),
                Ok(export) => {
                    if export.has_requires {
                        mistakes.push(format!(
                            "{path}: {}: it has a `requires`, and nothing proves that a caller meets it",
                            export.name
                        ));
                    }
                    if path.starts_with(CALLS) {
                        calls.push(export);
                    }
                }
            }
        }
    }
    let in_c = calls.iter().map(Export::in_c).collect::<Vec<_>>();
    let in_rust = calls.iter().map(Export::in_rust).collect::<Vec<_>>();
    mistakes.extend(compare(HEADER, declared::in_header(&files[HEADER]), &in_c));
    mistakes.extend(compare(RAW, declared::in_extern_blocks(&files[RAW]), &in_rust));
    mistakes
}

fn compare(path: &str, declared: Vec<Result<Declaration, String>>, exported: &[Declaration]) -> Vec<String> {
    let mut mistakes = Vec::new();
    let mut missing = exported.iter().map(|export| &export.name).collect::<Vec<_>>();
    for declaration in declared {
        let mistake = declaration.and_then(|declaration| {
            missing.retain(|name| **name != declaration.name);
            agree(&declaration, exported)
        });
        mistakes.extend(mistake.err().map(|why| format!("{path}: {why}")));
    }
    mistakes
        .extend(missing.iter().map(|name| format!("{path}: {name}: {CALLS} exports it, and it is not declared here")));
    mistakes
}

/// Only the first difference is told: behind a parameter that is left out every other one stands at a wrong place.
fn agree(declaration: &Declaration, exported: &[Declaration]) -> Result<(), String> {
    let name = &declaration.name;
    let Some(export) = exported.iter().find(|export| export.name == *name) else {
        return Err(format!("{name}: it is declared here, and {CALLS} does not export it"));
    };
    for place in 0..declaration.parameters.len().max(export.parameters.len()) {
        let [here, there] =
            [declaration, export].map(|function| function.parameters.get(place).map_or("missing", String::as_str));
        if here != there {
            return Err(format!("{name}: parameter {} is `{here}`, by the export it is `{there}`", place + 1));
        }
    }
    if declaration.result != export.result {
        return Err(format!("{name}: it returns `{}`, by the export `{}`", declaration.result, export.result));
    }
    Ok(())
}
