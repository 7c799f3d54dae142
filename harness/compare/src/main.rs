//! Compares the oracle with the second reading at any length: one summary line, exit status 1 on a difference. As
//! `ringcut` it answers the lines of standard input as the Rust does; as `sample-..` it prints specimens to be replayed.

use std::io::{self, Read, Write};
use std::process::exit;

use compare::campaign::Campaign;
use compare::command::Command;
use compare::{calls, frames, lines, mends, mistakes, passes, vectors};

const USAGE: &str =
    "usage: compare frames|lines|rings|slices|passes|mends|mistakes [--seed S] [--count N], N specimens of each kind
       compare sample-lines|sample-rings|sample-slices [--seed S] [--count N], N of each kind and answer
       compare ringcut <lines";

fn main() {
    let Command { what, seed, count } = Command::read(USAGE);
    match what.as_str() {
        "frames" => report(&frames::compare(seed, count)),
        "lines" => report(&lines::compare(seed, count)),
        "rings" => report(&calls::compare_ring_calls(seed, count)),
        "slices" => report(&calls::compare_slice_calls(seed, count)),
        "passes" => report(&passes::compare(seed, count)),
        "mends" => report(&mends::compare(seed, count)),
        "mistakes" => {
            let search = mistakes::search(seed, count, u64::MAX);
            println!("{search}");
            exit(i32::from(!search.not_found().is_empty() || search.difference().is_some()));
        }
        "sample-lines" => print(&vectors::lines(seed, count)),
        "sample-rings" => print(&vectors::rings(seed, count)),
        "sample-slices" => print(&vectors::slices(seed, count)),
        "ringcut" => ringcut(),
        _ => {
            eprintln!("{USAGE}");
            exit(2);
        }
    }
}

fn report(campaign: &Campaign) {
    println!("{campaign}");
    exit(i32::from(campaign.difference().is_some()));
}

fn ringcut() {
    let mut input = Vec::new();
    io::stdin().read_to_end(&mut input).expect("standard input can be read");
    print(&oracle::lines(&input));
}

fn print(bytes: &[u8]) {
    io::stdout().write_all(bytes).expect("standard output can be written");
}
