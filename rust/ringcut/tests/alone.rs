//! The crate stands alone: its sources compile with nothing beside them, and without the standard library.

use std::process::Command;

#[test]
fn no_dependency() {
    let manifest = include_str!("../Cargo.toml");
    assert!(!manifest.contains("dependencies"));
    let source = include_str!("../src/lib.rs");
    assert!(source.contains("\n#![no_std]\n"));
    let compiled = Command::new("rustc")
        .args(["--edition", "2021", "--crate-type", "lib", "--crate-name", "ringcut", "--emit", "metadata"])
        .args(["--out-dir", env!("CARGO_TARGET_TMPDIR")])
        .arg(concat!(env!("CARGO_MANIFEST_DIR"), "/src/lib.rs"))
        .status();
    assert!(compiled.unwrap().success());
}
