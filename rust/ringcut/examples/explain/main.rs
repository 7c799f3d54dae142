//! Says frames or answers in words and as WKT, which GIS tools such as QGIS and PostGIS read:
//!
//! ```sh
//! cargo run --example explain -- frames <../../examples/frames.hex
//! ../../target/bin/ringcut <../../examples/frames.hex | cargo run --example explain -- answers
//! ```
//!
//! Standard input has a frame a line, or an answer as the program `ringcut` prints it, in hexadecimal digits of either case. Each line
//! gets a block: its number and what it is, then the words, then the WKT, which alone begins without a blank. Line 2 of the examples is
//!
//! ```text
//! line 2: a polygon
//!   flags 3: assume_simple, skip_boundary_fallback
//!   bounds: west 0, south 0, east 10, north 10
//!   buffer: 0
//!   part 0, ring 0, the exterior: 5 coordinates
//!   as WKT:
//! POLYGON ((5 5, 15 5, 15 8, 5 8, 5 5))
//! ```
//!
//! and its answer
//!
//! ```text
//! line 2: 1 part is listed
//!   part 0 is cut
//!     exterior: (5,5) corner 0, (10,5) Right, (10,8) Right, (5,8) corner 3, (5,5) corner 0
//!   a corner with a number is one of the ring that was sent, counted from 0; one with a bound was made there by the cut
//!   Left, Right, Bottom and Top are the west, east, south and north bound
//!   part 0 as WKT:
//! POLYGON ((5 5, 10 5, 10 8, 5 8, 5 5))
//! ```
//!
//! So `grep -E '^(MULTI)?POLYGON'` leaves the WKT alone. A number has the fewest digits that read back as the same double.
//! Of an answer among frames, and of a frame among answers, the words say that it is one.
//!
//! A carriage return at a line's end is passed over; the program `ringcut` refuses such a line with 10. The exit status is 1 where a
//! line is not an answer, 2 where the arguments are others or standard input or output fails, else 0. A frame that is refused is no
//! failure: the words say why it is.

mod answer;
mod frame;
#[path = "../shared/mod.rs"]
mod shared;
mod wkt;

use std::env;
use std::io::{self, ErrorKind, Write};
use std::process::ExitCode;

use shared::lines;

const USAGE: &str = "usage: explain frames|answers, with lines of hexadecimal digits on standard input";

/// What a line is, and lines of words and WKT about it.
struct Explained {
    headline: String,
    lines: Vec<String>,
    /// Whether it is what it was read as, if only a refusal.
    is_readable: bool,
}

fn main() -> ExitCode {
    let arguments: Vec<_> = env::args_os().skip(1).collect();
    let explain = match arguments.as_slice() {
        [what] if what == "frames" => frame::explain,
        [what] if what == "answers" => answer::explain,
        _ => {
            eprintln!("{USAGE}");
            return ExitCode::from(2);
        }
    };
    match run(explain) {
        Ok(true) => ExitCode::SUCCESS,
        Ok(false) => ExitCode::from(1),
        // Whoever reads has seen enough.
        Err(error) if error.kind() == ErrorKind::BrokenPipe => ExitCode::SUCCESS,
        Err(error) => {
            eprintln!("explain: stopped, standard input or output fails: {error}");
            ExitCode::from(2)
        }
    }
}

/// Explains each line of standard input, and answers whether all were readable.
fn run(explain: fn(&[u8]) -> Explained) -> io::Result<bool> {
    let mut output = io::stdout().lock();
    let mut all_readable = true;
    let mut count = 0;
    for line in lines::of_standard_input("explain: waits for lines of hexadecimal digits; Ctrl-D ends them") {
        let Explained { headline, lines, is_readable } = explain(&line?);
        count += 1;
        all_readable &= is_readable;
        let gap = if count > 1 { "\n" } else { "" };
        writeln!(output, "{gap}line {count}: {headline}\n{}", lines.join("\n"))?;
    }
    if count == 0 {
        eprintln!("explain: standard input has no line");
    }
    Ok(all_readable)
}
