//! Where the source is; a build script's module.

use std::env;
use std::path::{Path, PathBuf};

/// `crates/core/src` of the checkout that TYLERTOO_SRC names, or of the documents beside the repository where it is empty
/// or not set.
pub fn core_source(manifest: &Path) -> PathBuf {
    let root = match env::var_os("TYLERTOO_SRC").filter(|checkout| !checkout.is_empty()) {
        Some(checkout) => PathBuf::from(checkout),
        None => manifest.join("../../../shared/docs/src"),
    };
    let source = root.join("crates/core/src");
    source.canonicalize().unwrap_or_else(|_| {
        panic!("no source at {}: set TYLERTOO_SRC to a tylertoo checkout at a26e7e68ef", source.display())
    })
}
