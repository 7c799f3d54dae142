//! The programs of README.md print what it says, built as it says: by hand, in the root of a repository.

use std::path::{Path, PathBuf};
use std::process::Command;
use std::{env, fs};

const README: &str = include_str!("../README.md");

/// The blocks of README.md that are marked as being in this language.
fn blocks(language: &str) -> Vec<&'static str> {
    let beginning = format!("\n```{language}\n");
    README.split(&beginning).skip(1).map(|rest| rest.split_once("```").unwrap().0).collect()
}

/// Copies the files of a folder, and of those below it.
fn copy_files(from: &Path, to: &Path) {
    fs::create_dir_all(to).unwrap();
    for entry in fs::read_dir(from).unwrap() {
        let path = entry.unwrap().path();
        let copy = to.join(path.file_name().unwrap());
        if path.is_dir() {
            copy_files(&path, &copy);
        } else {
            fs::copy(&path, copy).unwrap();
        }
    }
}

/// A folder that has what the commands name: the crate and the library, at their places in the repository. They are copies: `rt ci`
/// refuses a repository with links in it.
fn root() -> PathBuf {
    let root = Path::new(env!("CARGO_TARGET_TMPDIR")).join("the repository");
    if root.exists() {
        fs::remove_dir_all(&root).unwrap();
    }
    let this_crate = Path::new(env!("CARGO_MANIFEST_DIR"));
    let library = env::var_os("RINGCUT_LIB_DIR").map_or(this_crate.join("../../target/staticlib"), PathBuf::from);
    copy_files(&this_crate.join("src"), &root.join("rust/ringcut/src"));
    copy_files(&library, &root.join("target/staticlib"));
    root
}

#[test]
fn the_programs_print_what_is_said() {
    let (programs, prints) = (blocks("rust"), blocks("text"));
    assert_eq!((programs.len(), prints.len()), (3, 3));
    let commands = blocks("sh").into_iter().find(|commands| commands.contains("rustc")).unwrap();
    let root = root();
    for (program, printed) in programs.into_iter().zip(prints) {
        fs::write(root.join("program.rs"), program).unwrap();
        let script = format!("set -e\n{commands}\n./program");
        let output = Command::new("sh").args(["-c", &script]).current_dir(&root).output().unwrap();
        assert!(output.status.success(), "{}", String::from_utf8_lossy(&output.stderr));
        assert_eq!(String::from_utf8(output.stdout).unwrap(), printed);
    }
}
