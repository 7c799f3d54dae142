//! Each file laid out for an accessor starts with the exact bytes of the source.

use std::fs;
use std::path::Path;

#[test]
fn opened_files_start_with_the_source() {
    for name in ["clip.rs", "ioverlay_clip.rs", "sutherland_hodgman.rs"] {
        let source = fs::read(Path::new(env!("TYLERTOO_CORE_SRC")).join(name)).unwrap();
        let compiled = fs::read(Path::new(env!("OUT_DIR")).join(name)).unwrap();
        let appended = compiled.strip_prefix(source.as_slice()).unwrap_or_else(|| panic!("{name} was changed"));
        assert!(appended.starts_with(b"\n/// The private function"), "{name} is followed by something else");
    }
}
