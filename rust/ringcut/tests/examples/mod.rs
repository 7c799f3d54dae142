//! Runs the crate's examples. `cargo test` builds them before the tests; `cargo test --test NAME` alone does not.

use std::io::Write;
use std::path::{Path, PathBuf};
use std::process::{Command, Stdio};
use std::time::SystemTime;
use std::{env, fs, thread};

/// The repository's root.
pub const ROOT: &str = concat!(env!("CARGO_MANIFEST_DIR"), "/../..");

/// What a program did.
pub struct Ran {
    pub status: i32,
    pub output: String,
    pub said: String,
}

/// A built example of the crate: it stands beside the folder of this test. One that is older than its sources would be another program.
pub fn example(name: &str) -> PathBuf {
    let test = env::current_exe().unwrap();
    let example = test.ancestors().nth(2).unwrap().join("examples").join(name);
    assert!(example.is_file(), "{} is missing: cargo build --examples", example.display());
    let sources = ["src", "examples/shared", &format!("examples/{name}")].map(newest);
    let is_current = sources.iter().all(|&source| source <= modified(&example));
    assert!(
        is_current,
        "{} is older than its sources: cargo build --examples, with --release if so",
        example.display()
    );
    example
}

fn modified(file: &Path) -> SystemTime {
    fs::metadata(file).unwrap().modified().unwrap()
}

/// When the newest file of a folder of the crate was changed.
fn newest(folder: &str) -> SystemTime {
    let files = fs::read_dir(Path::new(env!("CARGO_MANIFEST_DIR")).join(folder)).unwrap();
    files.map(|file| modified(&file.unwrap().path())).max().unwrap()
}

/// Runs a program with these arguments and this standard input.
pub fn run(program: impl AsRef<Path>, arguments: &[&str], input: &[u8]) -> Ran {
    let mut command = Command::new(program.as_ref());
    command.args(arguments).stdin(Stdio::piped()).stdout(Stdio::piped()).stderr(Stdio::piped());
    let mut child = command.spawn().unwrap();
    let mut standard_input = child.stdin.take().unwrap();
    let input = input.to_vec();
    // A program that stops early leaves some of it unread, which is not looked at here.
    let feeder = thread::spawn(move || standard_input.write_all(&input).is_ok());
    let output = child.wait_with_output().unwrap();
    feeder.join().unwrap();
    Ran {
        status: output.status.code().expect("no signal ended it"),
        output: String::from_utf8(output.stdout).unwrap(),
        said: String::from_utf8(output.stderr).unwrap(),
    }
}

/// The digits of bytes, as a line has them.
pub fn digits(bytes: &[u8]) -> String {
    bytes.iter().map(|byte| format!("{byte:02x}")).collect()
}
