//! The program `ringcut`: frames as lines of hexadecimal digits, answers as lower-case lines.

use formats::from_hex;

/// What the program prints for this input.
pub fn lines(input: &[u8]) -> Vec<u8> {
    let mut printed = Vec::new();
    for line in input.split_inclusive(|&byte| byte == b'\n') {
        let line = line.strip_suffix(b"\n").unwrap_or(line);
        let answer = from_hex(line).and_then(|frame| crate::answer(&frame, usize::MAX));
        let answer = answer.unwrap_or_else(|refusal| vec![refusal, 0, 0, 0, 0]);
        for byte in answer {
            printed.extend(format!("{byte:02x}").bytes());
        }
        printed.push(b'\n');
    }
    printed
}
