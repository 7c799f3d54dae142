//! Times the port beside the unchanged Rust, on the same inputs, in one run: one table, times in nanoseconds. The ratio is the
//! port's time over the Rust's. The name of a workload asks for its rows alone, `instructions` for the counts of callgrind,
//! `crossings` for issue checks of rings that cross themselves, `shallow` for those of rings that cross in floats alone, `mends` for the
//! mending call. As `ringcut` it is the Rust program that the port's is measured beside.

mod crossings;
mod frames;
mod instructions;
mod issues;
mod lines;
mod mends;
mod outlines;
mod rings;
mod shallow;
mod slices;
mod table;
mod timing;

use std::io::{stdin, stdout};

/// In the order of the table.
const WORKLOADS: [(&str, fn()); 5] = [
    ("issues", issues::measure),
    ("rings", rings::measure),
    ("slices", slices::measure),
    ("frames", frames::measure),
    ("lines", lines::measure),
];

fn main() {
    let arguments: Vec<String> = std::env::args().skip(1).collect();
    match arguments.first().map(String::as_str) {
        Some("ringcut") => {
            baseline::run(stdin().lock(), stdout().lock()).expect("standard input and output can be used")
        }
        Some("calls") => instructions::make_calls(&arguments[1..]),
        Some("instructions") => instructions::measure(),
        Some("crossings") => crossings::measure(),
        Some("shallow") => shallow::measure(),
        Some("mends") => mends::measure(),
        asked => measure(asked),
    }
}

/// The rows of every workload, or of the one asked for.
fn measure(asked: Option<&str>) {
    let is_asked = |name: &str| asked.is_none_or(|asked| asked == name);
    assert!(
        WORKLOADS.iter().any(|&(name, _)| is_asked(name)),
        "usage: bench [issues|rings|slices|frames|lines|instructions|crossings|shallow|mends]"
    );
    table::print_head();
    WORKLOADS.iter().filter(|&&(name, _)| is_asked(name)).for_each(|&(_, measure)| measure());
}
