//! The program `ringcut`: lines of hexadecimal digits to lines of answers.

use std::io::{self, BufRead, BufReader, BufWriter, Read, Write};

use formats::Refusal;

use crate::Cutter;

/// The bytes that are read or written at a time.
const BLOCK: usize = 1 << 16;

/// Of a character that is no digit.
const NO_DIGIT: u8 = 0xff;

const DIGITS: &[u8; 16] = b"0123456789abcdef";

/// The value of each character as a hexadecimal digit of either case.
const VALUES: [u8; 256] = {
    let mut values = [NO_DIGIT; 256];
    let mut value = 0;
    while value < 16 {
        values[DIGITS[value] as usize] = value as u8;
        values[DIGITS[value].to_ascii_uppercase() as usize] = value as u8;
        value += 1;
    }
    values
};

/// The two digits of each byte.
const PAIRS: [[u8; 2]; 256] = {
    let mut pairs = [[0; 2]; 256];
    let mut byte = 0;
    while byte < 256 {
        pairs[byte] = [DIGITS[byte / 16], DIGITS[byte % 16]];
        byte += 1;
    }
    pairs
};

/// Answers the input line by line.
pub fn run(input: impl Read, output: impl Write) -> io::Result<()> {
    let mut input = BufReader::with_capacity(BLOCK, input);
    let mut output = BufWriter::with_capacity(BLOCK, output);
    let mut cutter = Cutter::default();
    let (mut line, mut frame, mut answer, mut printed) = (Vec::new(), Vec::new(), Vec::new(), Vec::new());
    while input.read_until(b'\n', &mut line)? > 0 {
        let digits = line.strip_suffix(b"\n").unwrap_or(&line);
        let cut = decode(digits, &mut frame).and_then(|()| cutter.cut(&frame, &mut answer));
        if let Err(refusal) = cut {
            answer.clear();
            answer.extend([refusal, 0, 0, 0, 0]);
        }
        encode(&answer, &mut printed);
        output.write_all(&printed)?;
        line.clear();
    }
    output.flush()
}

fn decode(digits: &[u8], frame: &mut Vec<u8>) -> Result<(), Refusal> {
    if digits.len() % 2 == 1 {
        return Err(10);
    }
    let mut seen = 0;
    frame.clear();
    frame.extend(digits.chunks_exact(2).map(|pair| {
        let (high, low) = (VALUES[usize::from(pair[0])], VALUES[usize::from(pair[1])]);
        seen |= high | low;
        high << 4 | low & 0xf
    }));
    // No digit's value has the highest bit.
    if seen & 0x80 == 0 {
        Ok(())
    } else {
        Err(10)
    }
}

fn encode(answer: &[u8], printed: &mut Vec<u8>) {
    printed.clear();
    printed.extend(answer.iter().flat_map(|&byte| PAIRS[usize::from(byte)]));
    printed.push(b'\n');
}
