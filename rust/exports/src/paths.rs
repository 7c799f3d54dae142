//! The paths of the files that are compared, from the repository's root.

pub const CALLS_CODE: &str = "crates/ringcut_calls/src/lib.rt";
pub const CALLS_VERSION: &str = "crates/ringcut_calls/specs/Version.antt";
pub const CALLS_EDIT: &str = "crates/ringcut_calls/must-fail/patch_one_too_high.edit";
pub const PROGRAM: &str = "crates/ringcut/src/main.rt";
pub const HEADER: &str = "include/ringcut.h";
pub const RAW: &str = "rust/ringcut/src/raw.rs";
pub const REFUSALS: &str = "rust/ringcut/src/refusal.rs";
pub const MANIFEST: &str = "rust/ringcut/Cargo.toml";
pub const CRATE_VERSION: &str = "rust/ringcut/src/version.rs";
pub const WORDS: &str = "scripts/words";
pub const PYTHON: &str = "examples/python/ringcut.py";
pub const README: &str = "README.md";
pub const CHANGES: &str = "CHANGELOG.md";
