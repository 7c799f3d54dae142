//! The program `ringcut`, character by character.

use crate::{Mistake, Reading};

/// More room than any frame asks for.
const AMPLE: usize = 1 << 20;

/// Characters of the longest frame's line.
const LONGEST_LINE: usize = 10_240;

impl Reading {
    /// What the program prints for this input.
    pub fn lines(&self, input: &[u8]) -> Vec<u8> {
        let mut printed = Vec::new();
        let mut line = Vec::new();
        for &character in input {
            if character == b'\n' {
                self.print_line(&line, &mut printed);
                line.clear();
            } else if character != b'\r' || !self.makes(Mistake::SkipsCarriageReturn) {
                line.push(character);
            }
        }
        let unfinished = !line.is_empty() && !self.makes(Mistake::SkipsUnfinishedLine);
        let one_more = line.is_empty() && !input.is_empty() && self.makes(Mistake::LineAfterLastNewline);
        if unfinished || one_more {
            self.print_line(&line, &mut printed);
        }
        printed
    }

    fn print_line(&self, line: &[u8], printed: &mut Vec<u8>) {
        if line.is_empty() && self.makes(Mistake::SkipsEmptyLines) {
            return;
        }
        let answer = match self.bytes_of_line(line).and_then(|frame| self.answer(&frame, AMPLE)) {
            Ok(answer) => answer,
            Err(refusal) => vec![refusal, 0, 0, 0, 0],
        };
        let digits = b"0123456789abcdef";
        for byte in answer {
            printed.push(digits[usize::from(byte >> 4)]);
            printed.push(digits[usize::from(byte & 15)]);
        }
        printed.push(b'\n');
    }

    fn bytes_of_line(&self, line: &[u8]) -> Result<Vec<u8>, u8> {
        if line.len() > LONGEST_LINE && self.makes(Mistake::LengthBeforeDigits) {
            return Err(11);
        }
        let mut values = Vec::new();
        for &character in line {
            values.push(match character {
                b'0'..=b'9' => character - b'0',
                b'a'..=b'f' => character - b'a' + 10,
                b'A'..=b'F' if !self.makes(Mistake::RefusesUpperCase) => character - b'A' + 10,
                _ => return Err(10),
            });
        }
        if values.len() % 2 != 0 {
            return Err(10);
        }
        Ok(values.chunks(2).map(|pair| 16 * pair[0] + pair[1]).collect())
    }
}
