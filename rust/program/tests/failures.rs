//! A read or a write that fails ends the work, in one line on standard error; one that would have to wait is made again.

use std::fs::{self, File};
use std::io::{Read, Write};
use std::os::fd::OwnedFd;
use std::os::unix::net::UnixStream;
use std::os::unix::process::ExitStatusExt;
use std::path::Path;
use std::process::{Child, Stdio};
use std::thread::{sleep, spawn, JoinHandle};
use std::time::Duration;

use program::{ended, example, non_blocking_pipe, repository, ringcut, ringcut_by};

/// Often enough to fill every pipe between.
const TIMES: usize = 1000;

fn frames_file() -> File {
    File::open(repository().join("examples/frames.hex")).unwrap()
}

fn full_device() -> File {
    File::options().write(true).open("/dev/full").unwrap()
}

/// Feeds lines, beside what goes on here, until the program has ended and nobody reads them, or, if it goes on, a million.
fn feed_many(child: &mut Child) {
    let mut input = child.stdin.take().unwrap();
    let lines = "03\n".repeat(1000);
    spawn(move || (0..1000).try_for_each(|_| input.write_all(lines.as_bytes())));
}

#[test]
fn a_full_device_is_told() {
    let run = ended(ringcut().stdin(frames_file()).stdout(full_device()).spawn().unwrap()).unwrap();
    assert_eq!(run.err, "ringcut: stopped, standard output can't be written: No space left on device\n");
    assert!(run.status.success());
}

#[test]
fn a_long_input_is_left_at_a_full_device() {
    let mut child = ringcut().stdin(Stdio::piped()).stdout(full_device()).spawn().unwrap();
    feed_many(&mut child);
    let run = ended(child).unwrap();
    assert_eq!(run.err, "ringcut: stopped, standard output can't be written: No space left on device\n");
}

#[test]
fn a_closed_pipe_ends_the_program() {
    let mut child = ringcut().stdin(Stdio::piped()).spawn().unwrap();
    drop(child.stdout.take());
    feed_many(&mut child);
    let run = ended(child).unwrap();
    // A Rattle program ignores SIGPIPE from its start on, so the write that fails is told, as where the signal is ignored before.
    let told = "ringcut: stopped, standard output can't be written: Broken pipe\n";
    assert_eq!((run.status.signal(), run.err.as_str()), (None, told));
}

#[test]
fn a_closed_pipe_is_told_where_its_signal_is_ignored() {
    let mut child = ringcut_by("trap '' PIPE; exec \"$0\"").stdin(Stdio::piped()).spawn().unwrap();
    drop(child.stdout.take());
    feed_many(&mut child);
    let run = ended(child).unwrap();
    assert_eq!(run.err, "ringcut: stopped, standard output can't be written: Broken pipe\n");
    assert!(run.status.success());
}

#[test]
fn what_was_written_before_a_failure_is_whole_up_to_there() {
    // A limit of one block, 512 or 1,024 bytes by the shell, with the signal ignored that else ends the program there.
    let file = Path::new(env!("CARGO_TARGET_TMPDIR")).join("limited");
    let limited = "trap '' XFSZ; ulimit -f 1; exec \"$0\"";
    let child = ringcut_by(limited).stdin(frames_file()).stdout(File::create(&file).unwrap()).spawn().unwrap();
    let run = ended(child).unwrap();
    assert_eq!(run.err, "ringcut: stopped, standard output can't be written: File too large\n");
    let (written, answers) = (fs::read_to_string(&file).unwrap(), example("answers.hex"));
    assert!(written.len() >= 512 && written.len() < answers.len() && answers.starts_with(&written));
}

#[test]
fn a_last_line_without_newline_is_told_too() {
    let mut child = ringcut().stdin(Stdio::piped()).stdout(full_device()).spawn().unwrap();
    child.stdin.take().unwrap().write_all(b"03").unwrap();
    let run = ended(child).unwrap();
    assert_eq!(run.err, "ringcut: stopped, standard output can't be written: No space left on device\n");
}

/// What closing standard output would tell is asked for at the end, since some file systems tell only then that something was lost.
#[test]
fn a_close_that_fails_is_told() {
    let run = ended(ringcut_by("exec \"$0\" >&-").spawn().unwrap()).unwrap();
    assert_eq!(run.err, "ringcut: standard output can't be closed, so answers may be lost: Bad file descriptor\n");
}

#[test]
fn closed_descriptors_are_told() {
    let run = ended(ringcut_by("exec \"$0\" <&-").spawn().unwrap()).unwrap();
    assert_eq!(run.err, "ringcut: stopped, standard input can't be read: Bad file descriptor\n");
    let run = ended(ringcut_by("exec \"$0\" >&-").stdin(frames_file()).spawn().unwrap()).unwrap();
    assert_eq!(run.err, "ringcut: stopped, standard output can't be written: Bad file descriptor\n");
}

#[test]
fn a_directory_is_told() {
    let directory = File::open(repository()).unwrap();
    let run = ended(ringcut().stdin(directory).spawn().unwrap()).unwrap();
    assert_eq!(run.err, "ringcut: stopped, standard input can't be read: Is a directory\n");
    assert_eq!(run.out, "");
}

#[test]
fn a_line_that_a_failed_read_cut_off_gets_no_answer() {
    let (mut here, mut there) = UnixStream::pair().unwrap();
    // A socket that is closed while it has something to read fails at the other end, behind what was sent.
    there.write_all(b"unread").unwrap();
    here.write_all(b"03\n03").unwrap();
    drop(here);
    let run = ended(ringcut().stdin(OwnedFd::from(there)).spawn().unwrap()).unwrap();
    assert_eq!(run.err, "ringcut: stopped, standard input can't be read: Connection reset by peer\n");
    assert_eq!(run.out, "0b00000000\n");
}

/// Reads to the end, some bytes each millisecond, beside what goes on here.
fn read_slowly(mut reader: File) -> JoinHandle<String> {
    spawn(move || {
        let (mut text, mut some) = (Vec::new(), [0; 8192]);
        loop {
            sleep(Duration::from_millis(1));
            match reader.read(&mut some).unwrap() {
                0 => return String::from_utf8(text).unwrap(),
                n => text.extend_from_slice(&some[..n]),
            }
        }
    })
}

#[test]
fn a_slow_reader_of_a_pipe_that_does_not_wait_gets_every_answer() {
    let (reader, writer) = non_blocking_pipe().unwrap();
    let mut child = ringcut().stdin(Stdio::piped()).stdout(writer).spawn().unwrap();
    let mut input = child.stdin.take().unwrap();
    let feeding = spawn(move || input.write_all(example("frames.hex").repeat(TIMES).as_bytes()));
    let answers = read_slowly(reader);
    let run = ended(child).unwrap();
    assert_eq!(run.err, "");
    feeding.join().unwrap().unwrap();
    let answers = answers.join().unwrap();
    assert!(answers == example("answers.hex").repeat(TIMES), "{} bytes of answers", answers.len());
}

#[test]
fn a_failure_is_told_where_standard_error_does_not_wait() {
    let (reader, mut writer) = non_blocking_pipe().unwrap();
    // Full, so that the line has to wait for the reader.
    let mut filled = 0;
    while let Ok(n) = writer.write(&[b' '; 512]) {
        filled += n;
    }
    let directory = File::open(repository()).unwrap();
    let child = ringcut().stdin(directory).stderr(writer).spawn().unwrap();
    sleep(Duration::from_millis(20));
    let told = read_slowly(reader);
    ended(child).unwrap();
    let told = told.join().unwrap().split_off(filled);
    assert_eq!(told, "ringcut: stopped, standard input can't be read: Is a directory\n");
}

#[test]
fn a_slow_writer_of_an_input_that_does_not_wait_is_answered_in_full() {
    let (mut here, there) = UnixStream::pair().unwrap();
    there.set_nonblocking(true).unwrap();
    let child = ringcut().stdin(OwnedFd::from(there)).spawn().unwrap();
    let feeding = spawn(move || {
        for part in example("frames.hex").as_bytes().chunks(500) {
            sleep(Duration::from_millis(2));
            here.write_all(part).unwrap();
        }
    });
    let run = ended(child).unwrap();
    feeding.join().unwrap();
    assert_eq!((run.out, run.err.as_str()), (example("answers.hex"), ""));
}
