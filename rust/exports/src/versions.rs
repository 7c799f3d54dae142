//! The version, which the C header gives by three numbers, and the places that repeat it.

use crate::paths::{CALLS_CODE, CALLS_EDIT, CALLS_VERSION, CHANGES, CRATE_VERSION, HEADER};
use crate::paths::{MANIFEST, PROGRAM, PYTHON, README};
use crate::Files;

struct Version {
    major: u32,
    minor: u32,
    patch: u32,
}

/// A file, a text that stands in it before the version, one that stands behind it, and what must stand between them.
type Place = (&'static str, &'static str, &'static str, fn(&Version) -> String);

const PLACES: [Place; 13] = [
    (HEADER, "\n#define RINGCUT_VERSION_TEXT ", "\n", |version| format!("\"{}\"", version.text())),
    (MANIFEST, "\nversion = ", "\n", |version| format!("\"{}\"", version.text())),
    (CRATE_VERSION, "\npub const VERSION: Version = ", "\n", |Version { major, minor, patch }| {
        format!("Version {{ major: {major}, minor: {minor}, patch: {patch} }};")
    }),
    (CALLS_CODE, "\nconst VERSION: u32 = ", "\n", |version| format!("{};", version.number())),
    // The edit that must fail: where it is not raised too, it no longer fits the code, or is no lapse by one.
    (CALLS_EDIT, "\nold: const VERSION: u32 = ", "\n", |version| format!("{};", version.number())),
    (CALLS_EDIT, "\nnew: const VERSION: u32 = ", "\n", |version| format!("{};", version.number() + 1)),
    (CALLS_VERSION, "\nmajor = ", "\n", |version| version.major.to_string()),
    (CALLS_VERSION, "\nminor = ", "\n", |version| version.minor.to_string()),
    (CALLS_VERSION, "\npatch = ", "\n", |version| version.patch.to_string()),
    (PROGRAM, "b\"ringcut ", "\n", |version| format!("{}\\n\";", version.text())),
    (README, "`ringcut --version` prints `ringcut ", "`", Version::text),
    (PYTHON, "\n    ringcut ", "\n", Version::text),
    (CHANGES, "\n## ", "\n", Version::text),
];

impl Version {
    fn text(&self) -> String {
        format!("{}.{}.{}", self.major, self.minor, self.patch)
    }

    fn number(&self) -> u32 {
        1_000_000 * self.major + 1_000 * self.minor + self.patch
    }
}

/// Where another version stands than the header's, or none.
pub fn mistakes(files: &Files) -> Vec<String> {
    let Some(version) = in_header(&files[HEADER]) else {
        return vec![format!("{HEADER}: the three numbers of the version, minor and patch under 1000, are not read")];
    };
    let mistakes = PLACES.iter().filter_map(|(path, before, after, written)| {
        let found = between(&files[*path], before, after).unwrap_or("missing");
        let expected = written(&version);
        let before = before.trim_start();
        (found != expected)
            .then(|| format!("{path}: behind `{before}` stands `{found}`, by {HEADER} it is `{expected}`"))
    });
    mistakes.collect()
}

fn in_header(header: &str) -> Option<Version> {
    let part = |name: &str| between(header, &format!("\n#define RINGCUT_VERSION_{name} "), "\n")?.parse().ok();
    let under_1000 = |part: &u32| *part < 1000;
    let (minor, patch) = (part("MINOR").filter(under_1000)?, part("PATCH").filter(under_1000)?);
    Some(Version { major: part("MAJOR")?, minor, patch })
}

/// What follows the first place where a text stands, up to another text.
fn between<'a>(text: &'a str, before: &str, after: &str) -> Option<&'a str> {
    text.split_once(before)?.1.split(after).next()
}
