//! Draws a frame and what it is answered as SVG, for whoever is asked about it on the phone:
//!
//! ```sh
//! cargo run --example picture -- --title 'A lake' 8 <../../examples/frames.hex >lake.svg
//! ```
//!
//! Standard input has a frame a line, in hexadecimal digits of either case; the line with this number, from 1, is drawn, else the first.
//! The answer is asked of the library. Above the drawing it stands in sentences, and what a reason tells is marked in the drawing: the
//! corner that is repeated, the edges that cross, the bound that a cut runs along. Below it stands what can't be shown, and why.
//!
//! ```sh
//! cargo run --example picture -- --list ../../examples/pictures.txt ../../examples/pictures <../../examples/frames.hex
//! ```
//!
//! draws those of a list, each into a file of the folder: a row of the list has the number of a line, the file's name and the title.
//!
//! A frame that is refused is not drawn: a sentence says why, and the exit status is 1. It is 2 where the arguments are others, where
//! there is no such line, or where something can't be read or written.

mod area;
mod canvas;
mod legend;
mod marks;
mod outline;
mod room;
mod scene;
#[path = "../shared/mod.rs"]
mod shared;
mod text;
mod view;
mod words;

use std::io::{self, ErrorKind, Write};
use std::path::Path;
use std::process::ExitCode;
use std::{env, fs};

use ringcut::{answer_frame, Frame, Refusal, MOST_FRAME_OUTPUT};
use shared::lines;

const USAGE: &str = "usage: picture [--title TITLE] [LINE] <FRAMES >PICTURE.svg
       picture --list LIST FOLDER <FRAMES";

/// Why nothing is drawn: a sentence and the exit status.
struct Failure(String, u8);

fn main() -> ExitCode {
    let arguments: Vec<String> =
        env::args_os().skip(1).map(|argument| argument.to_string_lossy().into_owned()).collect();
    let arguments: Vec<&str> = arguments.iter().map(String::as_str).collect();
    let drawn = match arguments.as_slice() {
        ["--list", list, folder] => draw_list(list, Path::new(folder)),
        ["--title", title, line] => draw_one(Some(title), line),
        ["--title", title] => draw_one(Some(title), "1"),
        [line] => draw_one(None, line),
        [] => draw_one(None, "1"),
        _ => Err(wrong_use()),
    };
    match drawn {
        Ok(()) => ExitCode::SUCCESS,
        Err(Failure(sentence, status)) => {
            eprintln!("{sentence}");
            ExitCode::from(status)
        }
    }
}

fn wrong_use() -> Failure {
    Failure(USAGE.to_string(), 2)
}

/// Draws the line with this number to standard output.
fn draw_one(title: Option<&str>, number: &str) -> Result<(), Failure> {
    let number = number.parse().map_err(|_| wrong_use())?;
    let title = title.map_or(format!("The frame of line {number}"), String::from);
    let picture = draw(&read_lines()?, number, &title)?;
    match io::stdout().write_all(picture.as_bytes()) {
        // Whoever reads has seen enough.
        Err(error) if error.kind() != ErrorKind::BrokenPipe => Err(failure("standard output", error)),
        _ => Ok(()),
    }
}

/// Draws each row of a list into the folder.
fn draw_list(list: &str, folder: &Path) -> Result<(), Failure> {
    let rows = fs::read_to_string(list).map_err(|error| failure(list, error))?;
    let lines = read_lines()?;
    for row in rows.lines() {
        let mut words = row.splitn(3, ' ');
        let (Some(Ok(number)), Some(name), Some(title)) = (words.next().map(str::parse), words.next(), words.next())
        else {
            return Err(Failure(
                format!("picture: {list}: a row has a line's number, a file's name and a title, and not: {row}"),
                2,
            ));
        };
        let file = folder.join(name);
        fs::write(&file, draw(&lines, number, title)?).map_err(|error| failure(&file.to_string_lossy(), error))?;
    }
    Ok(())
}

fn read_lines() -> Result<Vec<Vec<u8>>, Failure> {
    let lines = lines::of_standard_input("picture: waits for lines of hexadecimal digits; Ctrl-D ends them");
    lines.collect::<io::Result<_>>().map_err(|error| failure("standard input", error))
}

fn failure(what: &str, error: io::Error) -> Failure {
    Failure(format!("picture: {what}: {error}"), 2)
}

/// The picture of the line with this number, from 1.
fn draw(lines: &[Vec<u8>], number: usize, title: &str) -> Result<String, Failure> {
    let Some(line) = number.checked_sub(1).and_then(|index| lines.get(index)) else {
        return Err(Failure(format!("picture: standard input has no line {number}"), 2));
    };
    let refused = |refusal: Refusal| Failure(format!("picture: line {number}: {refusal}"), 1);
    let bytes = lines::bytes_of(line).ok_or(Refusal::Digits).map_err(refused)?;
    let frame = Frame::read(&bytes).map_err(refused)?;
    let mut out = vec![0; MOST_FRAME_OUTPUT];
    let answer = answer_frame(&bytes, &mut out).map_err(refused)?;
    Ok(scene::draw(title, &frame, &answer))
}
