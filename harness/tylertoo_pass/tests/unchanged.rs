//! The unchanged copy starts with the exact bytes of the source, and the traced one is the unchanged one but for one statement.

use std::fs;
use std::path::Path;

/// What the traced copy has and the unchanged one has not.
const TOLD: &str = "    crate::verdicts::tell(coord);\n";

#[test]
fn the_unchanged_copy_starts_with_the_source() {
    let source = fs::read_to_string(env!("TYLERTOO_CUTTER")).unwrap();
    let unchanged = laid_out("unchanged.rs");
    let appended = unchanged.strip_prefix(&source).expect("the copy was changed");
    assert!(appended.starts_with("\n/// The private function"), "the copy is followed by something else");
}

#[test]
fn the_traced_copy_is_the_unchanged_one_but_for_one_statement() {
    let traced = laid_out("traced.rs");
    let [before, behind] = traced.split(TOLD).collect::<Vec<_>>()[..] else {
        panic!("the statement does not stand there exactly once");
    };
    assert_eq!([before, behind].concat(), laid_out("unchanged.rs"));
    let head = before.lines().last().unwrap();
    assert!(head.starts_with("fn is_inside(") && head.ends_with('{'), "the statement stands behind {head}");
}

fn laid_out(name: &str) -> String {
    fs::read_to_string(Path::new(env!("OUT_DIR")).join(name)).unwrap()
}
