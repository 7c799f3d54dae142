//! What cargo and rustc say of the crate where it can't be linked: for other targets, without the library, and where
//! RINGCUT_LIB_DIR names no folder. Blanks in the names of folders are there to be met.

mod folders;

use std::ffi::OsStr;
use std::fs;
use std::os::unix::ffi::OsStrExt;
use std::path::Path;
use std::process::Command;

use folders::new_folder;

/// What stands in the message of build.rs, and in that of src/lib.rs.
const WHAT_FOR: &str = "the library is for x86-64 Linux, with 64-bit pointers and doubles in SSE2 registers";

const TAKEN: [&str; 2] = ["x86_64-unknown-linux-gnu", "x86_64-unknown-linux-musl"];
const REFUSED: [&str; 6] = [
    "x86_64-unknown-none",
    "x86_64-unknown-linux-gnux32",
    "aarch64-unknown-linux-gnu",
    "x86_64-pc-windows-gnu",
    "x86_64-apple-darwin",
    "i686-unknown-linux-gnu",
];

/// A command of cargo's, as it is where the caller has set nothing, with the folder that it builds in.
fn cargo(command: &str, built: &Path) -> Command {
    let mut cargo = Command::new(env!("CARGO"));
    cargo.args([command, "--offline", "--color", "never"]);
    cargo.args(["--manifest-path", concat!(env!("CARGO_MANIFEST_DIR"), "/Cargo.toml")]);
    cargo.arg("--target-dir").arg(built);
    for name in ["RINGCUT_LIB_DIR", "RUSTFLAGS", "CARGO_ENCODED_RUSTFLAGS", "CARGO_BUILD_TARGET"] {
        cargo.env_remove(name);
    }
    cargo
}

/// Whether the command succeeds, and what it prints to standard error.
fn run(command: &mut Command) -> (bool, String) {
    let output = command.output().unwrap();
    (output.status.success(), String::from_utf8(output.stderr).unwrap())
}

fn assert_fails(command: &mut Command, sentence: &str) {
    let (succeeds, said) = run(command);
    assert!(!succeeds && said.contains(sentence), "{command:?} does not fail with {sentence:?}:\n{said}");
}

fn assert_succeeds(command: &mut Command) {
    let (succeeds, said) = run(command);
    assert!(succeeds && !said.contains("warning"), "{command:?} fails or warns:\n{said}");
}

/// A build script runs before its crate is compiled: so no target has to be installed.
#[test]
fn other_targets_are_refused_by_name() {
    let built = new_folder("other targets");
    for target in REFUSED {
        let sentence = format!("ringcut: the target {target} is refused: {WHAT_FOR}\n");
        assert_fails(cargo("check", &built).args(["--target", target]), &sentence);
    }
    for target in TAKEN {
        // It fails where the target is not installed, but not by the build script.
        let (_, said) = run(cargo("check", &built).args(["--target", target]));
        assert!(!said.contains("refused"), "{said}");
    }
}

/// Whether rustc takes a flag that moves doubles: it warns of those, and says that it will refuse them.
fn is_taken_by_rustc(flag: &str) -> bool {
    let target_feature = format!("target-feature={flag}");
    Command::new("rustc").args(["--print", "cfg", "-C", &target_feature]).output().unwrap().status.success()
}

/// The flags move doubles to other registers, or leave none for them.
#[test]
fn flags_that_move_doubles_are_refused() {
    let built = new_folder("other flags");
    let target = TAKEN[0];
    for (flag, but_for) in [("-sse2", "without SSE2"), ("+soft-float", "with +soft-float")] {
        let flags = format!("-C target-feature={flag}");
        let sentence = format!("ringcut: the target {target} {but_for} is refused: {WHAT_FOR}\n");
        let sentence = if is_taken_by_rustc(flag) { &sentence } else { "error" };
        assert_fails(cargo("check", &built).args(["--target", target]).env("RUSTFLAGS", flags), sentence);
    }
}

/// Of other targets rustc alone says that their `core` is not installed, before it reads the crate. Without SSE2 it reads it.
#[test]
fn rustc_by_hand_is_refused_too() {
    let mut rustc = Command::new("rustc");
    rustc.args(["--edition", "2021", "--crate-type", "lib", "--crate-name", "ringcut", "--emit", "metadata"]);
    rustc.arg("--out-dir").arg(new_folder("by hand without sse2"));
    rustc.args(["-C", "target-feature=-sse2", concat!(env!("CARGO_MANIFEST_DIR"), "/src/lib.rs")]);
    let sentence = format!("ringcut: this target is refused: {WHAT_FOR}\n");
    assert_fails(&mut rustc, if is_taken_by_rustc("-sse2") { &sentence } else { "error" });
}

/// So what src/lib.rs asks of a target is held to what rustc says of each.
#[test]
fn the_source_asks_what_tells_the_targets_apart() {
    let source = include_str!("../src/lib.rs");
    let (_, guard) = source.split_once("#[cfg(not(all(").unwrap();
    let (conditions, _) = guard.split_once(")))]\ncompile_error!").unwrap();
    let conditions: Vec<String> = conditions.split(',').map(|condition| condition.replace(' ', "")).collect();
    let is_taken = |target: &str| {
        let output = Command::new("rustc").args(["--print", "cfg", "--target", target]).output().unwrap();
        let cfg = String::from_utf8(output.stdout).unwrap();
        assert!(output.status.success());
        conditions.iter().all(|condition| cfg.lines().any(|line| line == condition))
    };
    assert_eq!(TAKEN.map(is_taken), [true; TAKEN.len()]);
    assert_eq!(REFUSED.map(is_taken), [false; REFUSED.len()]);
}

#[test]
fn only_a_build_needs_the_library() {
    let (built, folder) = (new_folder("without the library"), new_folder("no library"));
    let archive = folder.join("libringcut_calls.a");
    let cargo = |command: &str| {
        let mut cargo = cargo(command, &built);
        cargo.env("RINGCUT_LIB_DIR", &folder);
        cargo
    };
    assert_succeeds(&mut cargo("check"));
    assert_succeeds(&mut cargo("doc"));
    let sentence = format!(
        "{} (build it with 'sh scripts/build ringcut_calls', or set RINGCUT_LIB_DIR to the full path of its folder)",
        archive.display()
    );
    assert_fails(&mut cargo("build"), &format!("error: could not find native static library `{sentence}`"));
    // Here rustc or the linker says it, whichever comes first.
    assert_fails(cargo("test").arg("--no-run"), &sentence);
    // An archive of nothing: what it holds is looked at where a program is linked.
    fs::write(&archive, "!<arch>\n").unwrap();
    assert_succeeds(&mut cargo("build"));
    fs::remove_file(&archive).unwrap();
    assert_fails(&mut cargo("build"), &sentence);
    assert_succeeds(&mut cargo("check"));
}

#[test]
fn the_folder_is_named_by_its_full_path() {
    let built = new_folder("folders");
    let without_library = new_folder("a:colon");
    let missing = format!("ringcut: could not find {}/libringcut_calls.a (build it with", without_library.display());
    for (named, sentence) in [
        (
            OsStr::new(""),
            "ringcut: RINGCUT_LIB_DIR is empty: give the full path of the library's folder, or unset it\n",
        ),
        (OsStr::new("target/staticlib"), "ringcut: RINGCUT_LIB_DIR is target/staticlib: give the folder's full path\n"),
        (OsStr::new("/a\nb"), "ringcut: RINGCUT_LIB_DIR is /a\n  b: cargo takes a path that is one line of UTF-8\n"),
        (
            OsStr::from_bytes(b"/\xff"),
            "ringcut: RINGCUT_LIB_DIR is /\u{fffd}: cargo takes a path that is one line of UTF-8\n",
        ),
        (without_library.as_os_str(), &missing),
    ] {
        assert_fails(cargo("check", &built).env("RINGCUT_LIB_DIR", named), sentence);
    }
}
