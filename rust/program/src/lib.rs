//! Runs `target/bin/ringcut` on descriptors of every kind, and says what it printed.

mod descriptors;

use std::io::{self, Read};
use std::path::{Path, PathBuf};
use std::process::{Child, Command, ExitStatus, Stdio};
use std::thread::{sleep, spawn, JoinHandle};
use std::time::{Duration, Instant};

pub use descriptors::{non_blocking_pipe, terminal, Terminal};

/// A program that has not ended by then goes on for ever.
const LONGEST: Duration = Duration::from_secs(60);

/// What a run came to.
#[derive(Debug)]
pub struct Run {
    pub status: ExitStatus,
    pub out: String,
    pub err: String,
}

pub fn repository() -> PathBuf {
    Path::new(env!("CARGO_MANIFEST_DIR")).join("../..")
}

pub fn example(name: &str) -> String {
    let file = repository().join("examples").join(name);
    std::fs::read_to_string(&file).unwrap_or_else(|error| panic!("{}: {error}", file.display()))
}

/// The program, whose standard input is empty, and whose output and error are read here, until a test sets them otherwise.
pub fn ringcut() -> Command {
    piped(Command::new(repository().join("target/bin/ringcut")))
}

/// The program as a line of shell starts it, in which `"$0"` is its path.
pub fn ringcut_by(shell: &str) -> Command {
    let mut command = Command::new("sh");
    command.args(["-c", shell]).arg(repository().join("target/bin/ringcut"));
    piped(command)
}

fn piped(mut command: Command) -> Command {
    command.stdin(Stdio::null()).stdout(Stdio::piped()).stderr(Stdio::piped());
    command
}

/// Reads to the end, beside what goes on here.
fn read_beside(pipe: Option<impl Read + Send + 'static>) -> JoinHandle<io::Result<String>> {
    spawn(move || {
        let mut text = String::new();
        pipe.map_or(Ok(0), |mut pipe| pipe.read_to_string(&mut text)).map(|_| text)
    })
}

/// Waits for the end, and reads what the program wrote to the pipes that are left in `child`.
pub fn ended(mut child: Child) -> io::Result<Run> {
    drop(child.stdin.take());
    let (out, err) = (read_beside(child.stdout.take()), read_beside(child.stderr.take()));
    let latest = Instant::now() + LONGEST;
    let status = loop {
        if let Some(status) = child.try_wait()? {
            break status;
        }
        if Instant::now() > latest {
            child.kill()?;
            panic!("ringcut has not ended after {LONGEST:?}");
        }
        sleep(Duration::from_millis(1));
    };
    Ok(Run { status, out: out.join().unwrap()?, err: err.join().unwrap()? })
}
