//! The program `ringcut`: what it prints against the oracle's lines. Its input reaches it through a pipe, in blocks.

use std::io::Write;
use std::path::PathBuf;
use std::process::{ChildStdin, Command, Stdio};
use std::thread;

use compare::campaign::{self, Campaign, Checked};
use compare::lines::label;

/// Bytes written at a time: input by input, each in turn.
const BLOCKS: [usize; 4] = [3, 100, 4_096, usize::MAX];

/// Where the repository's build leaves the program.
pub fn program() -> PathBuf {
    let program = PathBuf::from(concat!(env!("CARGO_MANIFEST_DIR"), "/../../target/bin/ringcut"));
    assert!(program.exists(), "{} is missing: run scripts/test, which builds it", program.display());
    program
}

/// `count` inputs of a few lines each.
pub fn compare(seed: u64, count: u64) -> Campaign {
    campaign::run("port lines", seed, count, &[("input", ())], |(), index| {
        check(&generator::lines(seed, index), BLOCKS[index as usize % BLOCKS.len()])
    })
}

/// One input, written in blocks of that many bytes.
pub fn check(input: &[u8], block: usize) -> Checked {
    let (printed, expected) = (printed(input, block), oracle::lines(input));
    if printed == expected {
        return Ok(label(&expected));
    }
    let text = String::from_utf8_lossy;
    Err(format!("input {:?}, program {:?}, oracle {:?}", text(input), text(&printed), text(&expected)))
}

/// What the program prints. It may print before its input ends, so that another thread writes.
fn printed(input: &[u8], block: usize) -> Vec<u8> {
    let mut command = Command::new(program());
    let mut child = command.stdin(Stdio::piped()).stdout(Stdio::piped()).spawn().expect("the program can be run");
    let pipe = child.stdin.take().expect("its input is a pipe");
    let output = thread::scope(|scope| {
        scope.spawn(|| write_in_blocks(pipe, input, block));
        child.wait_with_output().expect("the program ends")
    });
    assert!(output.status.success(), "the program ended with {}", output.status);
    output.stdout
}

fn write_in_blocks(mut pipe: ChildStdin, input: &[u8], block: usize) {
    for part in input.chunks(block) {
        pipe.write_all(part).expect("the program reads its input to the end");
    }
}
