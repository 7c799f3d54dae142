//! Medians of interleaved runs.

use std::time::Instant;

/// Runs of each task; odd, so that one of them is the median.
const RUNS: usize = 21;

/// About how long one run of a task takes, in nanoseconds: long enough for the clock.
const RUN_NANOS: f64 = 2e6;

/// The median time of one call of each task, in nanoseconds. The tasks take turns, so that a slow moment of the machine
/// falls on all of them.
pub fn medians(tasks: &mut [&mut dyn FnMut()]) -> Vec<f64> {
    let repeats: Vec<u32> = tasks.iter_mut().map(|task| repeats(*task)).collect();
    interleaved(tasks, &repeats)
}

/// The same, with as many calls of every task in a run as of the slowest. For times that are taken from each other: the first
/// call of a run finds the caches cold, and it must weigh the same in both.
pub fn medians_in_step(tasks: &mut [&mut dyn FnMut()]) -> Vec<f64> {
    let fewest = tasks.iter_mut().map(|task| repeats(*task)).min().unwrap_or(1);
    interleaved(tasks, &vec![fewest; tasks.len()])
}

fn interleaved(tasks: &mut [&mut dyn FnMut()], repeats: &[u32]) -> Vec<f64> {
    let mut times = vec![Vec::with_capacity(RUNS); tasks.len()];
    for _ in 0..RUNS {
        for (k, task) in tasks.iter_mut().enumerate() {
            times[k].push(run(*task, repeats[k]));
        }
    }
    times.into_iter().map(median).collect()
}

/// How many calls make a run.
fn repeats(task: &mut dyn FnMut()) -> u32 {
    run(task, 1);
    (RUN_NANOS / run(task, 3)).clamp(1.0, 1e6) as u32
}

/// The mean time of a call in one run.
fn run(task: &mut dyn FnMut(), repeats: u32) -> f64 {
    let start = Instant::now();
    for _ in 0..repeats {
        task();
    }
    start.elapsed().as_nanos() as f64 / f64::from(repeats)
}

fn median(mut times: Vec<f64>) -> f64 {
    times.sort_by(f64::total_cmp);
    times[times.len() / 2]
}
