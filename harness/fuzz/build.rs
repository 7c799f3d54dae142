//! Links libFuzzer, which `run` has found.

fn main() {
    println!("cargo:rerun-if-env-changed=LIBFUZZER");
    let library = std::env::var("LIBFUZZER").expect("LIBFUZZER is not set: harness/fuzz/run sets it");
    for argument in ["-Wl,--whole-archive", &library, "-Wl,--no-whole-archive", "-lstdc++"] {
        println!("cargo:rustc-link-arg-bins={argument}");
    }
}
