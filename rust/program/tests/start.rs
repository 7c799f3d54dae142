//! What the program says before it reads: its version where it is asked for, its usage at any other argument, and at a terminal what it
//! waits for.

use std::fs::{self, File};
use std::io::{Seek, Write};

use program::{ended, example, repository, ringcut, terminal, Run, Terminal};

const USAGE: &str = "usage: ringcut <FRAMES >ANSWERS\n       ringcut --version\n";

/// What the program comes to with these arguments; it reads nothing of what stands ready for it.
fn started_with(arguments: &[&str]) -> Run {
    let mut frames = File::open(repository().join("examples/frames.hex")).unwrap();
    let run = ended(ringcut().args(arguments).stdin(frames.try_clone().unwrap()).spawn().unwrap()).unwrap();
    assert_eq!(frames.stream_position().unwrap(), 0, "{arguments:?}");
    run
}

#[test]
fn the_version_is_said_where_it_alone_is_asked_for() {
    let run = started_with(&["--version"]);
    // The header's version is held to the library's and the crate's by rust/exports.
    let header = fs::read_to_string(repository().join("include/ringcut.h")).unwrap();
    let (_, behind) = header.split_once("#define RINGCUT_VERSION_TEXT \"").unwrap();
    let version = behind.split('"').next().unwrap();
    assert_eq!((run.out, run.err.as_str()), (format!("ringcut {version}\n"), ""));
    let full = ended(ringcut().arg("--version").stdout(File::create("/dev/full").unwrap()).spawn().unwrap()).unwrap();
    assert_eq!(full.err, "ringcut: stopped, standard output can't be written: No space left on device\n");
}

#[test]
fn any_other_argument_prints_the_usage() {
    let near_version = ["--versio", "--versions", "-version", "--VERSION", "--version=", "--version\n"];
    let twice = ["--version", "--version"];
    // One that is longer than the program has room for.
    let long = "--version".repeat(2);
    for arguments in near_version.each_ref().map(std::slice::from_ref).into_iter().chain([
        &["--help"][..],
        &["-h"],
        &["examples/frames.hex"],
        &[""],
        &["--", "x"],
        &["x", "--version"],
        &twice,
        &[&long],
    ]) {
        let run = started_with(arguments);
        assert!(run.err.starts_with(USAGE), "{arguments:?}: {}", run.err);
        assert_eq!(run.out, "", "{arguments:?}");
    }
}

#[test]
fn nothing_is_said_where_all_is_well() {
    let frames = File::open(repository().join("examples/frames.hex")).unwrap();
    let run = ended(ringcut().stdin(frames).spawn().unwrap()).unwrap();
    assert_eq!((run.out, run.err.as_str()), (example("answers.hex"), ""));
    let run = ended(ringcut().spawn().unwrap()).unwrap();
    assert_eq!((run.out.as_str(), run.err.as_str()), ("", ""));
}

#[test]
fn at_a_terminal_it_says_what_it_waits_for() {
    let Terminal { mut controller, device } = terminal().unwrap();
    let child = ringcut().stdin(device).spawn().unwrap();
    // 4 is control-D, which ends the input where a line begins.
    controller.write_all(b"03\n\x04").unwrap();
    let run = ended(child).unwrap();
    assert_eq!(run.out, "0b00000000\n");
    assert_eq!(
        run.err,
        "ringcut: waiting for frames from the terminal, a line of hexadecimal digits each; control-D ends them\n"
    );
}
