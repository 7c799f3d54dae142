//! Folders that tests write to.

use std::fs;
use std::path::{Path, PathBuf};

/// A new folder for one test, in place of an older one of that name.
pub fn new_folder(name: &str) -> PathBuf {
    let folder = Path::new(env!("CARGO_TARGET_TMPDIR")).join(name);
    if folder.exists() {
        fs::remove_dir_all(&folder).unwrap();
    }
    fs::create_dir_all(&folder).unwrap();
    folder
}
