//! `shallow PAIRS SEED`: the port's rule for crossings beside the source's, on so many pairs of edges on the grid of document 02's Point 5
//! and as many off it. geo is not at hand: what stands for its `line_intersection` is in `wrapper`, over the real crate `robust`.
//! A difference on the grid, and one of the port and the rule anywhere, ends the run with the pair.

mod comparison;
mod exact;
mod generator;
mod pair;
mod rings;
mod rng;
mod whole;
mod wrapper;

use std::env;
use std::process::ExitCode;

use comparison::{OffGrid, OnGrid};
use rng::Rng;

fn main() -> ExitCode {
    let arguments: Vec<u64> = env::args().skip(1).filter_map(|argument| argument.parse().ok()).collect();
    let [pairs, seed] = arguments[..] else {
        eprintln!("usage: shallow PAIRS SEED");
        return ExitCode::from(2);
    };
    match compare(pairs, seed) {
        Ok(()) => ExitCode::SUCCESS,
        Err(difference) => {
            println!("difference: {difference}");
            ExitCode::FAILURE
        }
    }
}

fn compare(pairs: u64, seed: u64) -> Result<(), String> {
    println!("{} rings are as noted", rings::check());
    let mut rng = Rng::new(seed);
    let (mut on_grid, mut off_grid) = (OnGrid::default(), OffGrid::default());
    for _ in 0..pairs {
        on_grid.compare(&generator::on_grid(&mut rng))?;
        off_grid.compare(&generator::off_grid(&mut rng))?;
    }
    print!("{on_grid}{off_grid}");
    Ok(())
}
