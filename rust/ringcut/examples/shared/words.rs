//! Words that more than one program says.

use ringcut::Flags;

/// The flags by their number and by name.
pub fn flags(flags: Flags) -> String {
    let names = match (flags.assume_simple, flags.skip_boundary_fallback) {
        (false, false) => "none",
        (true, false) => "assume_simple",
        (false, true) => "skip_boundary_fallback",
        (true, true) => "assume_simple, skip_boundary_fallback",
    };
    format!("flags {}: {names}", flags.number())
}
