//! Fuzzes the frame entry against the oracle with libFuzzer: `fuzz FOLDER MINUTES SEED [MISTAKE]`. The folder gets frames of
//! every kind to begin with, and keeps those that reach more of the oracle. The first difference ends the run: it is printed
//! with its frame in hexadecimal digits. With a mistake of the second reading, that reading stands in for the port, to show
//! that a difference is found; it begins with one frame of each kind, so that it is the fuzzer that finds it.

use std::ffi::{c_char, c_int, CString};
use std::panic::catch_unwind;
use std::path::Path;
use std::sync::OnceLock;
use std::{env, fs, process, ptr, slice};

use compare::hex;
use formats::frame::{Frame, LONGEST};
use generator::{Kind, Specimen};
use reading::{Mistake, Reading};

/// Frames of each kind to begin with.
const SEEDS: u64 = 200;

/// A little more than the longest frame.
const MOST_BYTES: usize = LONGEST + 30;

/// What stands in for the port, if anything does.
static STAND_IN: OnceLock<Option<Reading>> = OnceLock::new();

extern "C" {
    fn LLVMFuzzerRunDriver(
        argc: *mut c_int,
        argv: *mut *mut *mut c_char,
        one_input: extern "C" fn(*const u8, usize) -> c_int,
    ) -> c_int;
}

fn main() {
    let arguments: Vec<String> = env::args().skip(1).collect();
    let [folder, minutes, seed, mistake @ ..] = &arguments[..] else {
        panic!("usage: fuzz FOLDER MINUTES SEED [MISTAKE]");
    };
    let minutes: u64 = minutes.parse().expect("minutes are a number");
    let seed: u64 = seed.parse().expect("the seed is a number");
    let mistake = mistake.first().map(|name| mistake_called(name));
    STAND_IN.set(mistake.map(Reading::with)).expect("it is set once");
    write_seeds(Path::new(folder), seed, if mistake.is_none() { SEEDS } else { 1 });
    fuzz(&[
        "fuzz".to_string(),
        format!("-max_total_time={}", 60 * minutes),
        format!("-seed={seed}"),
        format!("-max_len={MOST_BYTES}"),
        format!("-artifact_prefix={folder}/"),
        "-print_final_stats=1".to_string(),
        folder.clone(),
    ]);
}

fn mistake_called(name: &str) -> Mistake {
    let found = Mistake::ALL.iter().find(|mistake| format!("{mistake:?}") == name);
    *found.unwrap_or_else(|| panic!("no mistake is called {name}"))
}

/// `count` frames of each kind.
fn write_seeds(folder: &Path, seed: u64, count: u64) {
    for kind in Kind::ALL {
        for index in 0..count {
            let frame = generator::frame(kind, seed, index).frame;
            let file = folder.join(format!("{}-{index}", kind.name()));
            fs::write(&file, frame).unwrap_or_else(|error| panic!("{}: {error}", file.display()));
        }
    }
}

/// Hands over to libFuzzer, which ends the program.
fn fuzz(arguments: &[String]) {
    let arguments: Vec<CString> = arguments.iter().map(|text| CString::new(text.as_str()).expect("no NUL")).collect();
    let mut pointers: Vec<*mut c_char> = arguments.iter().map(|text| text.as_ptr().cast_mut()).collect();
    let mut count = pointers.len() as c_int;
    pointers.push(ptr::null_mut());
    let mut argv = pointers.as_mut_ptr();
    // SAFETY: an argument vector as C's main has it, which outlives the call.
    let status = unsafe { LLVMFuzzerRunDriver(&mut count, &mut argv, check_one) };
    process::exit(status);
}

extern "C" fn check_one(bytes: *const u8, length: usize) -> c_int {
    // SAFETY: libFuzzer lends that many bytes for the call.
    let frame = unsafe { slice::from_raw_parts(bytes, length) };
    let checked = catch_unwind(|| match STAND_IN.get().expect("it is set before the run") {
        None => port::frames::check(&Specimen { frame: frame.to_vec(), room: 0 }).map(|_| ()),
        Some(reading) => check_reading(reading, frame),
    });
    if let Err(difference) = checked.unwrap_or_else(|_| Err(format!("a side panicked, frame {}", hex(frame)))) {
        eprintln!("difference: {difference}");
        process::abort();
    }
    0
}

/// With the room that the frame asks for, and with a byte less.
fn check_reading(reading: &Reading, frame: &[u8]) -> Result<(), String> {
    let asked = Frame::decode(frame).map_or(0, |frame| frame.room());
    for room in [asked, asked.saturating_sub(1)] {
        if reading.answer(frame, room) != oracle::answer(frame, room) {
            return Err(format!("room {room}, frame {}", hex(frame)));
        }
    }
    Ok(())
}
