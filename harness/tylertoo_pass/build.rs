//! Lays out the source's cutter twice, each time followed by a module `opened` through which its pass is asked: unchanged, and
//! with one statement put in that tells each verdict it works out.

#[path = "../tylertoo/source.rs"]
mod source;

use std::env;
use std::fs;
use std::path::PathBuf;

/// The head of the function that works out a verdict, and what the traced copy has behind it.
const VERDICT: &str = "fn is_inside(coord: &Coord<f64>, edge: Edge, bounds: &TileBounds) -> bool {\n";
const TOLD: &str = "    crate::verdicts::tell(coord);\n";

fn main() {
    println!("cargo:rerun-if-changed=build.rs");
    println!("cargo:rerun-if-changed=../tylertoo/source.rs");
    println!("cargo:rerun-if-changed=opened.rs");
    println!("cargo:rerun-if-env-changed=TYLERTOO_SRC");

    let manifest = PathBuf::from(env::var("CARGO_MANIFEST_DIR").unwrap());
    let out = PathBuf::from(env::var("OUT_DIR").unwrap());
    let cutter = source::core_source(&manifest).join("sutherland_hodgman.rs");
    println!("cargo:rerun-if-changed={}", cutter.display());
    println!("cargo:rustc-env=TYLERTOO_CUTTER={}", cutter.display());

    let text = fs::read_to_string(cutter).unwrap();
    let opened = fs::read_to_string(manifest.join("opened.rs")).unwrap();
    let modules = [("unchanged", text.clone()), ("traced", traced(&text))].map(|(name, text)| {
        let file = out.join(name).with_extension("rs");
        fs::write(&file, format!("{text}\n{opened}")).unwrap();
        format!("#[allow(warnings)]\n#[path = {file:?}]\npub mod {name};\n")
    });
    fs::write(out.join("modules.rs"), modules.concat()).unwrap();
}

/// The cutter with the statement that tells a verdict at the front of the function that works it out.
fn traced(text: &str) -> String {
    let [before, behind] = text.split(VERDICT).collect::<Vec<_>>()[..] else {
        panic!("sutherland_hodgman.rs has this head not exactly once, so its verdicts can't be told: {VERDICT}");
    };
    [before, VERDICT, TOLD, behind].concat()
}
