//! Compares the port with the oracle at any length; one summary line, exit status 1 on a difference. It also replays vectors
//! from standard input.

use std::io::{stdin, Read};
use std::process::exit;

use compare::command::Command;
use port::cuts::Comparison;
use port::replay::{self, Replay};
use port::values::{self, Values};

const USAGE: &str =
    "usage: port bounds|cuts|frames|issues|lines|mends|pairs|passes|reader|rings|slices [--seed S] [--count N]
       port answer-values|built-frames|frame-values [--seed S] [--count N]
       port replay-rings|replay-slices <vectors";

fn main() {
    let Command { what, seed, count } = Command::read(USAGE);
    let campaign = match what.as_str() {
        "answer-values" => values::answers::compare(Values::OF_CRATE, seed, count),
        "bounds" => port::bounds::compare(seed, count),
        "built-frames" => values::building::compare(Values::OF_CRATE, seed, count),
        "cuts" => report_cuts(&port::cuts::compare(seed, count)),
        "frame-values" => values::frames::compare(Values::OF_CRATE, seed, count),
        "frames" => port::frames::compare(seed, count),
        "issues" => port::issues::compare(seed, count),
        "lines" => port::lines::compare(seed, count),
        "mends" => port::mends::compare(seed, count),
        "pairs" => port::pairs::compare(seed, count),
        "passes" => port::passes::compare(seed, count),
        "reader" => port::reader::compare(seed, count),
        "rings" => port::rings::compare(seed, count),
        "slices" => port::slices::compare(seed, count),
        "replay-rings" => report(&replay::replay_rings(&input())),
        "replay-slices" => report(&replay::replay_slices(&input())),
        _ => {
            eprintln!("{USAGE}");
            exit(2);
        }
    };
    println!("{campaign}");
    exit(i32::from(campaign.difference().is_some()));
}

fn report_cuts(comparison: &Comparison) -> ! {
    println!("{comparison}");
    exit(i32::from(comparison.difference().is_some()));
}

fn input() -> Vec<u8> {
    let mut input = Vec::new();
    stdin().read_to_end(&mut input).expect("standard input can be read");
    input
}

fn report(replay: &Replay) -> ! {
    print!("{replay}");
    replay.differences.iter().for_each(|difference| eprintln!("{difference}"));
    exit(i32::from(!replay.differences.is_empty()));
}
