//! Instructions of one call, counted by callgrind: the same on every machine and beside any other work. This program runs
//! itself under valgrind with few calls and with more; what the further calls took is divided among them. The port's ring calls
//! and slice calls are counted with their clearing, which the Rust has not.

use std::env;
use std::ffi::OsString;
use std::process::{Command, Stdio};

use crate::frames::{self, CASES, SIZES};
use crate::issues;
use crate::lines::{self, Input};
use crate::rings::{self, OUTLINES};
use crate::slices;
use crate::table::whole;

/// So many calls, and some more.
const CALLS: [usize; 2] = [20, 120];

/// The same for rings over 1,024 edges, of which one takes seconds under callgrind.
const CALLS_ON_LONG_RINGS: [usize; 2] = [1, 2];

/// Vertices of the rings that are cut.
const VERTICES: [usize; 2] = [64, 1_024];

/// Edges of the rings that are checked: up to 32 all pairs are scanned.
const EDGES: [usize; 7] = [32, 33, 64, 317, 1_024, 4_096, 65_536];

/// Lines of the program's input.
const FEW_LINES: usize = 500;
const FURTHER_LINES: usize = 1_000;

pub fn measure() {
    println!("| workload | size | case | Rust | port | ratio |\n|---|---|---|---|---|---|");
    for (s, size) in SIZES.iter().enumerate() {
        for (c, case) in CASES.iter().enumerate() {
            print_row("frame entry", size.name, case.name, of_a_call("frame", s, c, CALLS));
        }
    }
    measure_issues();
    for (v, vertices) in VERTICES.iter().enumerate() {
        let size = format!("{} vertices", whole(*vertices as f64));
        for (o, (name, _)) in OUTLINES.iter().enumerate() {
            print_row("ring call", &size, name, of_a_call("ring", v, o, CALLS));
        }
    }
    for (s, size) in slices::SIZES.iter().enumerate() {
        for (c, case) in slices::COUNTED.iter().enumerate() {
            print_row("slice call", &size.name(), case.name, of_a_call("slice", s, c, CALLS));
        }
    }
    for (name, shares) in lines::INPUTS {
        let inputs = [FEW_LINES, FEW_LINES + FURTHER_LINES].map(|count| Input::new(name, shares, count));
        let counts = lines::programs().map(|program| {
            let [few, more] = [0, 1].map(|k| collected(&program, Stdio::from(inputs[k].open())));
            (more - few) / FURTHER_LINES as f64
        });
        print_row("ringcut", name, "a line", counts);
    }
}

fn measure_issues() {
    for (e, edges) in EDGES.into_iter().enumerate() {
        let size = format!("{} edges", whole(edges as f64));
        let calls = if edges <= 1_024 { CALLS } else { CALLS_ON_LONG_RINGS };
        for (o, (name, _)) in issues::OUTLINES.iter().enumerate() {
            print_row("issue check", &size, name, of_a_call("issue", e, o, calls));
        }
    }
}

fn print_row(workload: &str, size: &str, case: &str, [rust, port]: [f64; 2]) {
    println!("| {workload} | {size} | {case} | {} | {} | {:.2} |", whole(rust), whole(port), port / rust);
}

/// Of both sides, in the order of the table.
fn of_a_call(call: &str, size: usize, case: usize, calls: [usize; 2]) -> [f64; 2] {
    ["rust", "port"].map(|side| {
        let counts = calls.map(|times| {
            let mut program = Command::new(env::current_exe().expect("a program knows where it is"));
            program.args(["calls", call, side]).args([size, case, times].map(|number| number.to_string()));
            collected(&program, Stdio::null())
        });
        (counts[1] - counts[0]) / (calls[1] - calls[0]) as f64
    })
}

/// The instructions of a program's run.
fn collected(program: &Command, input: Stdio) -> f64 {
    let output = Command::new("valgrind")
        .args(["--tool=callgrind", "--callgrind-out-file=/dev/null"])
        .arg(program.get_program())
        .args(program.get_args().map(OsString::from))
        .stdin(input)
        .stdout(Stdio::null())
        .stderr(Stdio::piped())
        .output()
        .expect("valgrind can be run: Debian's package valgrind");
    let said = String::from_utf8_lossy(&output.stderr);
    let count = said.lines().find_map(|line| line.split_once("Collected : ")?.1.trim().parse().ok());
    count.unwrap_or_else(|| panic!("callgrind counted nothing: {said}"))
}

/// Makes calls of one side, which callgrind counts: frame, issue, ring or slice, the side, the places of size and case, and how many.
pub fn make_calls(arguments: &[String]) {
    let [call, side, numbers @ ..] = arguments else {
        panic!("no call and no side are named");
    };
    let numbers: Vec<usize> = numbers.iter().map(|number| number.parse().expect("a number")).collect();
    let [size, case, times] = numbers[..] else {
        panic!("size, case and times are three numbers");
    };
    let is_rust = side == "rust";
    match call.as_str() {
        "frame" => {
            let mut sides = frames::Sides::new(&SIZES[size], &CASES[case]);
            let one_call = if is_rust { frames::Sides::rust } else { frames::Sides::port };
            (0..times).for_each(|_| one_call(&mut sides));
        }
        "issue" => {
            let (_, outline) = issues::OUTLINES[case];
            let mut sides = issues::Sides::new(&outline(EDGES[size]));
            let one_call = if is_rust { issues::Sides::rust } else { issues::Sides::port };
            (0..times).for_each(|_| one_call(&mut sides));
        }
        "ring" => {
            let (_, outline) = OUTLINES[case];
            let mut sides = rings::Sides::new(&outline(VERTICES[size]));
            let one_call = if is_rust { rings::Sides::rust } else { rings::Sides::port };
            (0..times).for_each(|_| one_call(&mut sides));
        }
        "slice" => {
            let mut sides = slices::Sides::new(slices::SIZES[size], &slices::COUNTED[case]);
            let one_call = if is_rust { slices::Sides::rust } else { slices::Sides::port };
            (0..times).for_each(|_| one_call(&mut sides));
        }
        other => panic!("{other} is no call"),
    }
}
