//! The program `ringcut` against the same program in Rust, on as many lines as the depot sends in a day.

use std::env;
use std::fs::{self, File};
use std::io::{BufWriter, Write};
use std::path::PathBuf;
use std::process::{Command, Stdio};
use std::time::Instant;

use compare::hex;
use formats::from_hex;

use crate::frames::{frame_bytes, without_origins, CASES, SIZES};
use crate::table::Row;

const LINES: usize = 200_000;

/// Runs of each program; odd, so that one of them is the median.
const RUNS: usize = 11;

/// How often each size of `SIZES` comes among a hundred lines.
type Shares = [usize; 4];

pub const INPUTS: [(&str, Shares); 2] = [("5 coordinates", [100, 0, 0, 0]), ("mixed", [80, 16, 2, 2])];

pub fn measure() {
    for (name, shares) in INPUTS {
        let input = Input::new(name, shares, LINES);
        rows(name, &input).iter().for_each(Row::print);
    }
}

/// A file of lines, which is removed in the end.
pub struct Input {
    file: PathBuf,
}

impl Input {
    pub fn new(name: &str, shares: Shares, count: usize) -> Input {
        let name = format!("ringcut-{}-{count}-{}.hex", name.replace(' ', "-"), std::process::id());
        let file = env::temp_dir().join(name);
        let mut written = BufWriter::new(File::create(&file).expect("a temporary file can be made"));
        let lines = hundred_lines(shares);
        for k in 0..count {
            written.write_all(lines[k % lines.len()].as_bytes()).expect("the lines can be written");
        }
        Input { file }
    }

    pub fn open(&self) -> File {
        File::open(&self.file).expect("the lines can be read")
    }
}

impl Drop for Input {
    fn drop(&mut self) {
        // What is left behind in a temporary folder does no harm.
        let _ = fs::remove_file(&self.file);
    }
}

/// A hundred lines of every case in turn, the sizes mixed by a fixed rule that looks like chance.
fn hundred_lines(shares: Shares) -> Vec<String> {
    let sizes: Vec<usize> = (0..4).flat_map(|size| vec![size; shares[size]]).collect();
    let line = |k: usize| hex(&frame_bytes(&SIZES[sizes[k * 37 % 100]], &CASES[k % CASES.len()])) + "\n";
    (0..100).map(line).collect()
}

/// The program of the repository, and this one as `bench ringcut`.
pub fn programs() -> [Command; 2] {
    let mut rust = Command::new(env::current_exe().expect("a program knows where it is"));
    rust.arg("ringcut");
    [rust, Command::new(port::lines::program())]
}

/// The median and the best of the runs, by line.
fn rows(name: &str, input: &Input) -> [Row; 2] {
    let mut programs = programs();
    let [rust, port] = programs.each_mut().map(|program| printed(program, input));
    assert!(rust == lines_without_origins(&port), "the two programs print other bytes");
    assert_eq!(rust.iter().filter(|&&byte| byte == b'\n').count(), LINES);
    let mut times = [Vec::new(), Vec::new()];
    for _ in 0..RUNS {
        for (times, program) in times.iter_mut().zip(&mut programs) {
            times.push(run(program, input));
        }
    }
    times.iter_mut().for_each(|times| times.sort_by(f64::total_cmp));
    [("median", RUNS / 2), ("best", 0)].map(|(which, place)| Row {
        workload: "ringcut",
        size: name.to_string(),
        case: format!("{which} of {RUNS}, by line"),
        rust: times[0][place],
        port: times[1][place],
        clearing: None,
    })
}

fn printed(program: &mut Command, input: &Input) -> Vec<u8> {
    let output = program.stdin(input.open()).stdout(Stdio::piped()).output().expect("the program can be run");
    assert!(output.status.success(), "{program:?}: {}", output.status);
    output.stdout
}

/// Lines of answers as the Rust prints them.
fn lines_without_origins(printed: &[u8]) -> Vec<u8> {
    let line = |line: &[u8]| hex(&without_origins(&from_hex(line).expect("the program prints digits"))) + "\n";
    let lines = printed.strip_suffix(b"\n").expect("the last line ends too").split(|&byte| byte == b'\n');
    lines.flat_map(|digits| line(digits).into_bytes()).collect()
}

/// The wall time of a run, by line, in nanoseconds; what is printed is thrown away.
fn run(program: &mut Command, input: &Input) -> f64 {
    let start = Instant::now();
    let status = program.stdin(input.open()).stdout(Stdio::null()).status().expect("the program can be run");
    let elapsed = start.elapsed().as_nanos() as f64;
    assert!(status.success(), "{program:?}: {status}");
    elapsed / LINES as f64
}
