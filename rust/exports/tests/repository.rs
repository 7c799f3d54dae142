//! The repository's own files agree, and a mistake made in them is told.

use std::path::Path;

use exports::paths::*;
use exports::{declaration_mistakes, mistakes, read, Files};

const PROBE: &str = "crates/probe/src/lib.rt";

fn repository() -> Files {
    read(Path::new(concat!(env!("CARGO_MANIFEST_DIR"), "/../.."))).unwrap()
}

#[test]
fn the_files_agree() {
    let mistakes = mistakes(&repository());
    assert!(mistakes.is_empty(), "\n{}\n", mistakes.join("\n"));
}

/// A text of a file, another that is written in its place, and what is told.
type Mistake = (&'static str, &'static str, &'static str, &'static str);

const OF_DECLARATIONS: [Mistake; 26] = [
    // A flag as a u32: in the export, where both declarations differ from it, and in each declaration.
    (
        CALLS_CODE,
        "assume_simple: u8,",
        "assume_simple: u32,",
        "include/ringcut.h: ringcut_polygon: parameter 1 is `uint8_t assume_simple`, by the export it is `uint32_t assume_simple`\n\
         rust/ringcut/src/raw.rs: ringcut_polygon: parameter 1 is `assume_simple: u8`, by the export it is `assume_simple: u32`",
    ),
    (
        HEADER,
        "uint8_t assume_simple,",
        "uint32_t assume_simple,",
        "include/ringcut.h: ringcut_polygon: parameter 1 is `uint32_t assume_simple`, by the export it is `uint8_t assume_simple`",
    ),
    (
        RAW,
        "assume_simple: u8,",
        "assume_simple: u32,",
        "rust/ringcut/src/raw.rs: ringcut_polygon: parameter 1 is `assume_simple: u32`, by the export it is `assume_simple: u8`",
    ),
    // A `requires`, also in a crate for tests, where the harness calls by the export.
    (
        CALLS_CODE,
        "fn ringcut_frame(frame: &[u8], out: &mut [u8]) -> i64",
        "fn ringcut_frame(frame: &[u8], out: &mut [u8]) -> i64\n    requires { 0 < length out.old }",
        "crates/ringcut_calls/src/lib.rt: ringcut_frame: it has a `requires`, and nothing proves that a caller meets it",
    ),
    (
        PROBE,
        "fn probe_empty(out: &mut [f64])",
        "fn probe_empty(out: &mut [f64])\n    requires room { length out.old ≡ 4 }",
        "crates/probe/src/lib.rt: probe_empty: it has a `requires`, and nothing proves that a caller meets it",
    ),
    // Parameters exchanged.
    (
        HEADER,
        "double west, double south, double east, double north,\n                     double *scratch",
        "double south, double west, double east, double north,\n                     double *scratch",
        "include/ringcut.h: ringcut_ring: parameter 3 is `double south`, by the export it is `double west`",
    ),
    (
        RAW,
        "skip_boundary_fallback: u8,\n            west: f64,",
        "west: f64,\n            skip_boundary_fallback: u8,",
        "rust/ringcut/src/raw.rs: ringcut_polygon: parameter 2 is `west: f64`, \
         by the export it is `skip_boundary_fallback: u8`",
    ),
    (
        RAW,
        "origin_scratch: *mut u16,\n            origin_scratch_len: usize,\n            order: *mut u32,\n            order_len: usize,",
        "order: *mut u32,\n            order_len: usize,\n            origin_scratch: *mut u16,\n            origin_scratch_len: usize,",
        "rust/ringcut/src/raw.rs: ringcut_polygon: parameter 14 is `order: *mut u32`, \
         by the export it is `origin_scratch: *mut u16`",
    ),
    // Two slices of one kind exchanged: the call would write to the one that it should read.
    (
        RAW,
        "ring: *const f64, ring_len: usize, out: *mut f64, out_len: usize)",
        "out: *mut f64, out_len: usize, ring: *const f64, ring_len: usize)",
        "rust/ringcut/src/raw.rs: ringcut_mend: parameter 1 is `out: *mut f64`, by the export it is `ring: *const f64`",
    ),
    // Origins in another width.
    (
        HEADER,
        "uint16_t *out_origins, size_t out_origins_len);",
        "uint32_t *out_origins, size_t out_origins_len);",
        "include/ringcut.h: ringcut_ring: parameter 13 is `uint32_t *out_origins`, by the export it is `uint16_t *out_origins`",
    ),
    // A slice's length left out.
    (
        HEADER,
        "const uint8_t *frame, size_t frame_len,",
        "const uint8_t *frame,",
        "include/ringcut.h: ringcut_frame: parameter 2 is `uint8_t *out`, by the export it is `size_t frame_len`",
    ),
    (
        RAW,
        "out: *mut u8, out_len: usize)",
        "out: *mut u8)",
        "rust/ringcut/src/raw.rs: ringcut_frame: parameter 4 is `missing`, by the export it is `out_len: usize`",
    ),
    // A slice that is written, declared as one that is not.
    (
        HEADER,
        "uint8_t *out, size_t out_len",
        "const uint8_t *out, size_t out_len",
        "include/ringcut.h: ringcut_frame: parameter 3 is `const uint8_t *out`, by the export it is `uint8_t *out`",
    ),
    // A slice that is read, declared as one that is written.
    (
        HEADER,
        "ringcut_mend(const double *ring,",
        "ringcut_mend(double *ring,",
        "include/ringcut.h: ringcut_mend: parameter 1 is `double *ring`, by the export it is `const double *ring`",
    ),
    // Another result.
    (
        HEADER,
        "int64_t ringcut_frame",
        "int32_t ringcut_frame",
        "include/ringcut.h: ringcut_frame: it returns `int32_t`, by the export `int64_t`",
    ),
    (
        RAW,
        "out_len: usize) -> i64;",
        "out_len: usize);",
        "rust/ringcut/src/raw.rs: ringcut_frame: it returns `()`, by the export `i64`",
    ),
    (
        HEADER,
        "uint32_t ringcut_version(void);",
        "int64_t ringcut_version(void);",
        "include/ringcut.h: ringcut_version: it returns `int64_t`, by the export `uint32_t`",
    ),
    // An export that is not declared, and a declaration that is not exported.
    (
        CALLS_CODE,
        "pub extern \"C\" fn ringcut_frame",
        "pub extern \"C\" fn ringcut_bytes",
        "include/ringcut.h: ringcut_frame: it is declared here, and crates/ringcut_calls/ does not export it\n\
         include/ringcut.h: ringcut_bytes: crates/ringcut_calls/ exports it, and it is not declared here\n\
         rust/ringcut/src/raw.rs: ringcut_frame: it is declared here, and crates/ringcut_calls/ does not export it\n\
         rust/ringcut/src/raw.rs: ringcut_bytes: crates/ringcut_calls/ exports it, and it is not declared here",
    ),
    (
        HEADER,
        "int64_t ringcut_frame(",
        "int64_t ringcut_room(size_t n);\nint64_t ringcut_frame(",
        "include/ringcut.h: ringcut_room: it is declared here, and crates/ringcut_calls/ does not export it",
    ),
    (
        RAW,
        "pub fn ringcut_version() -> u32;",
        "",
        "rust/ringcut/src/raw.rs: ringcut_version: crates/ringcut_calls/ exports it, and it is not declared here",
    ),
    // A function of the header's own in the place of the library's.
    (
        HEADER,
        "uint32_t ringcut_version(void);",
        "static inline uint32_t ringcut_version(void) { return RINGCUT_VERSION; }",
        "include/ringcut.h: ringcut_version: crates/ringcut_calls/ exports it, and it is not declared here",
    ),
    (
        HEADER,
        "uint32_t ringcut_version(void);",
        "static inline uint32_t ringcut_version(void);",
        "include/ringcut.h: ringcut_version: it returns `static inline uint32_t`, by the export `uint32_t`",
    ),
    // What can't be read is told too.
    (
        HEADER,
        "int64_t ringcut_frame(",
        "extern int ringcut_calls_made;\nint64_t ringcut_frame(",
        "include/ringcut.h: `extern int ringcut_calls_made`: this is not read as a function's declaration",
    ),
    (
        PROBE,
        "#[unsafe(no_mangle)]\npub extern \"C\" fn probe_empty",
        "pub extern \"C\" fn probe_empty",
        "crates/probe/src/lib.rt: `extern`: an export is written `#[unsafe(no_mangle)] pub extern \"C\" fn`",
    ),
    (
        PROBE,
        "#[unsafe(no_mangle)]\npub extern \"C\" fn probe_empty",
        "#[no_mangle]\npub extern \"C\" fn probe_empty",
        "crates/probe/src/lib.rt: `no_mangle`: an export is written `#[unsafe(no_mangle)] pub extern \"C\" fn`\n\
         crates/probe/src/lib.rt: `extern`: an export is written `#[unsafe(no_mangle)] pub extern \"C\" fn`",
    ),
    (
        PROBE,
        "fn probe_empty(out: &mut [f64])",
        "fn probe_empty(out: TileBounds)",
        "crates/probe/src/lib.rt: probe_empty: parameter `out: TileBounds` is not known to cross",
    ),
];

const OF_REFUSALS: [Mistake; 12] = [
    // Another number, a number that C would count, another name.
    (
        HEADER,
        "RINGCUT_REFUSED_SHORT = 26",
        "RINGCUT_REFUSED_SHORT = 23",
        "include/ringcut.h: RINGCUT_REFUSED_SHORT: its number is `23`, by rust/ringcut/src/refusal.rs it is `26`",
    ),
    (
        HEADER,
        "RINGCUT_REFUSED_PART_COUNT = 14,",
        "RINGCUT_REFUSED_PART_COUNT,",
        "include/ringcut.h: RINGCUT_REFUSED_PART_COUNT: its number is `not given`, by rust/ringcut/src/refusal.rs it is `14`",
    ),
    (
        HEADER,
        "RINGCUT_REFUSED_KIND = 12",
        "RINGCUT_REFUSED_TYPE = 12",
        "include/ringcut.h: RINGCUT_REFUSED_KIND: its number is `missing`, by rust/ringcut/src/refusal.rs it is `12`\n\
         include/ringcut.h: RINGCUT_REFUSED_TYPE: its number is `12`, by rust/ringcut/src/refusal.rs it is `missing`",
    ),
    // A refusal that one file has alone.
    (
        HEADER,
        "enum ringcut_refusal {",
        "enum ringcut_refusal {\n    RINGCUT_REFUSED_DIGITS = 10,",
        "include/ringcut.h: RINGCUT_REFUSED_DIGITS: its number is `10`, by rust/ringcut/src/refusal.rs it is `missing`",
    ),
    (
        REFUSALS,
        "pub enum Refusal {",
        "pub enum Refusal {\n    Bounds = 23,",
        "include/ringcut.h: RINGCUT_REFUSED_BOUNDS: its number is `missing`, by rust/ringcut/src/refusal.rs it is `23`",
    ),
    (
        WORDS,
        "refusals[18] =",
        "refusals[19] =",
        "scripts/words: refusals[18]: its text is `missing`, by rust/ringcut/src/refusal.rs it is `bytes follow the frame's last part`\n\
         scripts/words: refusals[19]: its text is `bytes follow the frame's last part`, by rust/ringcut/src/refusal.rs it is `missing`",
    ),
    // Another text, one that only some of the files have, none, and the text of another refusal.
    (
        HEADER,
        "\"there are over 65,532 coordinates\"",
        "\"there are over 65,536 coordinates\"",
        "include/ringcut.h: RINGCUT_REFUSED_COORDINATES: its text is `there are over 65,536 coordinates`, \
         by rust/ringcut/src/refusal.rs it is `there are over 65,532 coordinates`",
    ),
    (
        REFUSALS,
        "\"the frame's flags are over 3\"",
        "\"the flags are over 3\"",
        "include/ringcut.h: RINGCUT_REFUSED_FLAGS: its text is `the frame's flags are over 3`, \
         by rust/ringcut/src/refusal.rs it is `the flags are over 3`\n\
         scripts/words: refusals[13]: its text is `the frame's flags are over 3`, \
         by rust/ringcut/src/refusal.rs it is `the flags are over 3`",
    ),
    (
        HEADER,
        "case -RINGCUT_REFUSED_SHORT: return \"fewer than 4 coordinates remain\";",
        "",
        "include/ringcut.h: RINGCUT_REFUSED_SHORT: its text is `missing`, \
         by rust/ringcut/src/refusal.rs it is `fewer than 4 coordinates remain`",
    ),
    (
        HEADER,
        "case -RINGCUT_REFUSED_SHORT: return \"fewer than 4 coordinates remain\";",
        "case -RINGCUT_REFUSED_SHORT: return \"there are over 65,532 coordinates\";",
        "include/ringcut.h: RINGCUT_REFUSED_SHORT: its text is `there are over 65,532 coordinates`, \
         by rust/ringcut/src/refusal.rs it is `fewer than 4 coordinates remain`",
    ),
    (
        WORDS,
        "\"the line is not pairs of hexadecimal digits\"",
        "\"the line is not hexadecimal\"",
        "scripts/words: refusals[10]: its text is `the line is not hexadecimal`, \
         by rust/ringcut/src/refusal.rs it is `the line is not pairs of hexadecimal digits`",
    ),
    (
        WORDS,
        "\"the frame\\047s flags are over 3\"",
        "\"the frames flags are over 3\"",
        "scripts/words: refusals[13]: its text is `the frames flags are over 3`, \
         by rust/ringcut/src/refusal.rs it is `the frame's flags are over 3`",
    ),
];

const NO_VERSION: &str =
    "include/ringcut.h: the three numbers of the version, minor and patch under 1000, are not read";

/// The names of a version's three numbers in the header.
const NUMBERS: [&str; 3] = ["MAJOR", "MINOR", "PATCH"];

/// The header's line that has one of the three numbers.
fn defined(name: &str, number: u32) -> String {
    format!("\n#define RINGCUT_VERSION_{name} {number}\n")
}

/// The version that the header has: the tests hold for each.
fn version(files: &Files) -> [u32; 3] {
    NUMBERS.map(|name| (0..1000).find(|&number| files[HEADER].contains(&defined(name, number))).unwrap())
}

/// Each place that repeats a version: its file, the text before it, and what stands there.
fn places([major, minor, patch]: [u32; 3]) -> [(&'static str, &'static str, String); 13] {
    let text = format!("{major}.{minor}.{patch}");
    let number = 1_000_000 * major + 1_000 * minor + patch;
    let of_crate = format!("Version {{ major: {major}, minor: {minor}, patch: {patch} }};");
    [
        (HEADER, "#define RINGCUT_VERSION_TEXT ", format!("\"{text}\"")),
        (MANIFEST, "version = ", format!("\"{text}\"")),
        (CRATE_VERSION, "pub const VERSION: Version = ", of_crate),
        (CALLS_CODE, "const VERSION: u32 = ", format!("{number};")),
        (CALLS_EDIT, "old: const VERSION: u32 = ", format!("{number};")),
        (CALLS_EDIT, "new: const VERSION: u32 = ", format!("{};", number + 1)),
        (CALLS_VERSION, "major = ", format!("{major}")),
        (CALLS_VERSION, "minor = ", format!("{minor}")),
        (CALLS_VERSION, "patch = ", format!("{patch}")),
        (PROGRAM, "b\"ringcut ", format!("{text}\\n\";")),
        (README, "`ringcut --version` prints `ringcut ", text.clone()),
        (PYTHON, "ringcut ", text.clone()),
        (CHANGES, "## ", text),
    ]
}

fn differs(path: &str, before: &str, found: &str, right: &str) -> String {
    format!("{path}: behind `{before}` stands `{found}`, by include/ringcut.h it is `{right}`")
}

/// With a text of a file replaced, this is told.
fn assert_told(files: &Files, path: &str, text: &str, wrong: &str, told: &str) {
    let mut files = files.clone();
    let changed = files[path].replacen(text, wrong, 1);
    assert!(changed != files[path], "{path} does not have {text:?}");
    files.insert(path.to_string(), changed);
    assert_eq!(mistakes(&files).join("\n"), told, "with {wrong:?} in {path}");
}

#[test]
fn each_mistake_is_told() {
    let files = repository();
    for (path, text, wrong, told) in OF_DECLARATIONS.into_iter().chain(OF_REFUSALS) {
        assert_told(&files, path, text, wrong, told);
    }
}

#[test]
fn each_place_of_another_version_is_told() {
    let files = repository();
    let version = version(&files);
    for ((path, before, right), (.., wrong)) in places(version).into_iter().zip(places(version.map(|n| n + 1))) {
        let [text, other] = [&right, &wrong].map(|written| format!("{before}{written}"));
        assert_told(&files, path, &text, &other, &differs(path, before, &wrong, &right));
        // None. The list of changes has older ones behind it.
        if path != CHANGES {
            assert_told(&files, path, &text, "", &differs(path, before, "missing", &right));
        }
    }
    // A version of which only callers are told yet.
    let [.., (path, before, right)] = places(version);
    assert_told(&files, path, "\n## ", "\n## next\n\n## ", &differs(path, before, "next", &right));
}

/// Every other place then differs, as far as it has that number.
#[test]
fn another_number_in_the_header_is_told() {
    let files = repository();
    let version = version(&files);
    for (at, name) in NUMBERS.into_iter().enumerate() {
        let mut raised = version;
        raised[at] = (raised[at] + 1) % 1000;
        let pairs = places(version).into_iter().zip(places(raised));
        let told = pairs
            .filter(|(found, right)| found != right)
            .map(|((path, before, found), (.., right))| differs(path, before, &found, &right));
        let told = told.collect::<Vec<_>>().join("\n");
        assert_told(&files, HEADER, &defined(name, version[at]), &defined(name, raised[at]), &told);
    }
}

/// One that is not there, one that is no number, and one that reaches into the place of the number before it.
#[test]
fn a_header_without_a_version_is_told() {
    let files = repository();
    let [major, minor, patch] = version(&files);
    assert_told(&files, HEADER, &defined("MINOR", minor), "\n", NO_VERSION);
    assert_told(&files, HEADER, &defined("MAJOR", major), "\n#define RINGCUT_VERSION_MAJOR one\n", NO_VERSION);
    assert_told(&files, HEADER, &defined("PATCH", patch), &defined("PATCH", 1000), NO_VERSION);
}

/// Forms that the exports may have and that today's have not: arrays, single numbers that are lent, no result. The brackets, signs of
/// comments and quotation marks in a header's texts are only text.
#[test]
fn other_forms_are_read() {
    let rattle = r#"
        // Not an export: it may have a `requires`.
        fn before(n: usize) requires { n < 8 } {}
        #[unsafe(no_mangle)]
        pub extern "C" fn tally(kinds: &[u16], sums: &mut [f64; 1024], keys: &[u8; KEYS], last: &mut u32, sign: i8)
            ensures written { last.new ≡ 0 }
        { *last = 0; }
        #[unsafe(no_mangle)]
        pub extern "C" fn version() -> u16 { 1 }
        fn behind(n: usize) requires { n < 8 } {}
    "#;
    let header = "
        #ifdef __cplusplus
        extern \"C\" {
        #endif
        #define TWICE(n) \\
            ((n) + (n))
        enum kind { ONE = (1) };
        void tally(const uint16_t *kinds, size_t kinds_len, double *sums, // the sums
                   const uint8_t *keys, uint32_t *last, int8_t sign);
        static inline const char *text(int code)
        {
            return code ? \"one (of // two\" : \"\\\"/* { three;\";
        }
        uint16_t version(void);
        #ifdef __cplusplus
        }
        #endif
    ";
    let raw = r#"extern "C" {
        #[allow(clippy::too_many_arguments)]
        pub(super) fn tally(
            kinds: *const u16, kinds_len: usize, sums: *mut f64, keys: *const u8, last: *mut u32, sign: i8,
        );
        fn version() -> u16;
    }"#;
    let files = [(CALLS_CODE, rattle), (HEADER, header), (RAW, raw)];
    let files = files.map(|(path, text)| (path.to_string(), text.to_string()));
    assert_eq!(declaration_mistakes(&Files::from(files)), [""; 0]);
}
