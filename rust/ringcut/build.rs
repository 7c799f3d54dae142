//! Links the static library: from the folder that RINGCUT_LIB_DIR names, or from where the repository's own build leaves it.
//! Refuses every target but those that the library is for.

use std::env;
use std::path::{Path, PathBuf};
use std::process::exit;

const FOLDER: &str = "RINGCUT_LIB_DIR";

fn main() {
    println!("cargo:rerun-if-env-changed={FOLDER}");
    refuse_other_targets();
    let folder = folder();
    let archive = folder.join("libringcut_calls.a");
    println!("cargo:rerun-if-changed={}", archive.display());
    if archive.is_file() {
        println!("cargo:rustc-link-search=native={}", folder.display());
        println!("cargo:rustc-link-lib=static=ringcut_calls");
    } else {
        ask_for(&archive);
    }
}

/// Elsewhere a call puts its arguments in other places than where the library reads them, so that a pointer would be any number.
fn refuse_other_targets() {
    let cfg = |name: &str| env::var(format!("CARGO_CFG_TARGET_{name}")).unwrap_or_default();
    let is_x86_64_linux = cfg("ARCH") == "x86_64" && cfg("OS") == "linux" && cfg("POINTER_WIDTH") == "64";
    let has_sse2 = cfg("FEATURE").split(',').any(|feature| feature == "sse2");
    // rustc takes this flag with a warning, and no cfg tells that it was given.
    let is_soft_float = env::var("CARGO_ENCODED_RUSTFLAGS").is_ok_and(|flags| flags.contains("+soft-float"));
    let but_for = match (is_x86_64_linux, has_sse2, is_soft_float) {
        (true, true, false) => return,
        (true, true, true) => " with +soft-float",
        (true, false, _) => " without SSE2",
        (false, _, _) => "",
    };
    let target = env::var("TARGET").unwrap_or_default();
    stop(&format!(
        "the target {target}{but_for} is refused: \
         the library is for x86-64 Linux, with 64-bit pointers and doubles in SSE2 registers"
    ));
}

fn folder() -> PathBuf {
    let Some(named) = env::var_os(FOLDER).map(PathBuf::from) else {
        return Path::new(&env::var_os("CARGO_MANIFEST_DIR").unwrap()).join("../../target/staticlib");
    };
    if named.as_os_str().is_empty() {
        stop(&format!("{FOLDER} is empty: give the full path of the library's folder, or unset it"));
    }
    // A build script runs in its crate's folder, so a relative path would not mean what it meant to whoever set it.
    if named.is_relative() {
        stop(&format!("{FOLDER} is {}: give the folder's full path", named.display()));
    }
    // What a build script says to cargo is a line of UTF-8.
    if !named.to_str().is_some_and(|path| !path.contains('\n')) {
        stop(&format!("{FOLDER} is {}: cargo takes a path that is one line of UTF-8", named.display()));
    }
    named
}

/// Has rustc stop with a sentence once it needs the missing library. `cargo check` and `cargo doc` don't need it, and a build
/// script can't tell them from `cargo build`: so the sentence is given as the name of a library, which rustc will not find.
fn ask_for(archive: &Path) {
    let sentence = format!(
        "{} (build it with 'sh scripts/build ringcut_calls', or set {FOLDER} to the full path of its folder)",
        archive.display()
    );
    // In the name of a library a colon means something else to rustc.
    if sentence.contains(':') {
        stop(&format!("could not find {sentence}"));
    }
    println!("cargo:rustc-link-lib=static:+verbatim={sentence}");
}

fn stop(why: &str) -> ! {
    eprintln!("ringcut: {why}");
    exit(1);
}
