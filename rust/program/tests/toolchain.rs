//! scripts/toolchain says where another toolchain is installed than the one that the crates were proved with.

use std::fs::{self, Permissions};
use std::os::unix::fs::PermissionsExt;
use std::path::Path;
use std::process::{Command, Output};

use program::repository;

/// What scripts/toolchain says where a stand-in for `rt` prints this version.
fn with_version(version: &str) -> Output {
    let folder = Path::new(env!("CARGO_TARGET_TMPDIR")).join("toolchain").join(version);
    fs::create_dir_all(&folder).unwrap();
    let rt = folder.join("rt");
    fs::write(&rt, format!("#!/bin/sh\n[ \"$*\" = version ] && echo '{version}'\n")).unwrap();
    fs::set_permissions(&rt, Permissions::from_mode(0o755)).unwrap();
    let path = format!("{}:{}", folder.display(), std::env::var("PATH").unwrap());
    Command::new("sh").arg(repository().join("scripts/toolchain")).env("PATH", path).output().unwrap()
}

#[test]
fn another_toolchain_is_told() {
    let proved_with = fs::read_to_string(repository().join("toolchain")).unwrap();
    let same = with_version(proved_with.trim_end());
    assert!(same.status.success() && same.stdout.is_empty());

    let other = with_version("rattle-kit-0 logic 0");
    let said = String::from_utf8(other.stdout).unwrap();
    assert_eq!(other.status.code(), Some(1));
    assert_eq!(said.lines().count(), 1);
    assert!(
        said.contains("'rattle-kit-0 logic 0'") && said.contains(&format!("'{}'", proved_with.trim_end())),
        "{said}"
    );
}
