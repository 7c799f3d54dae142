//! Finds the source and lays out its modules: straight by path where the public functions are enough, and otherwise as a
//! file that holds the source's bytes unchanged, followed by a module `opened` through which private functions are asked.

mod source;

use std::env;
use std::fs;
use std::path::{Path, PathBuf};

/// Modules of the source, and whether `opened/` has an accessor to append.
const MODULES: [(&str, bool); 5] =
    [("box_pairs", false), ("clip", true), ("ioverlay_clip", true), ("sutherland_hodgman", true), ("tile", false)];

fn main() {
    println!("cargo:rerun-if-changed=build.rs");
    println!("cargo:rerun-if-changed=source.rs");
    println!("cargo:rerun-if-changed=opened");
    println!("cargo:rerun-if-env-changed=TYLERTOO_SRC");

    let manifest = PathBuf::from(env::var("CARGO_MANIFEST_DIR").unwrap());
    let out = PathBuf::from(env::var("OUT_DIR").unwrap());
    let source = source::core_source(&manifest);
    println!("cargo:rustc-env=TYLERTOO_CORE_SRC={}", source.display());

    let declarations: String = MODULES
        .iter()
        .map(|&(name, opened)| {
            let original = source.join(name).with_extension("rs");
            println!("cargo:rerun-if-changed={}", original.display());
            let file = if opened { open(&manifest, &out, &original) } else { original };
            format!("#[allow(warnings)]\n#[path = {file:?}]\npub mod {name};\n")
        })
        .collect();
    fs::write(out.join("modules.rs"), declarations).unwrap();
}

/// Writes the source's bytes with its accessor behind them.
fn open(manifest: &Path, out: &Path, original: &Path) -> PathBuf {
    let name = original.file_name().unwrap();
    let mut text = fs::read(original).unwrap();
    text.push(b'\n');
    text.extend(fs::read(manifest.join("opened").join(name)).unwrap());
    let file = out.join(name);
    fs::write(&file, text).unwrap();
    file
}
