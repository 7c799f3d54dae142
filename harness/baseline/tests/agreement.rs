//! The baseline answers as the oracle does, origins taken off, wherever the source's result tells the answer.

use baseline::Cutter;
use formats::answer::{Answer, Listed};
use formats::frame::Frame;
use generator::Kind;

const SEED: u64 = 1;
const COUNT: u64 = 3_000;

#[test]
fn frames_agree() {
    let (mut cutter, mut answer) = (Cutter::default(), Vec::new());
    let mut lists = 0;
    for kind in Kind::ALL {
        for index in 0..COUNT {
            let frame = generator::frame(kind, SEED, index).frame;
            let expected = oracle::answer(&frame, usize::MAX).map(|bytes| decoded(&bytes));
            if expected.as_ref().is_ok_and(|answer| !is_told(&frame, answer)) {
                continue;
            }
            let answered = cutter.cut(&frame, &mut answer).map(|()| answer.clone());
            lists += usize::from(matches!(expected, Ok(Answer::Listed { .. })));
            let expected = expected.map(|answer| answer.encode_without_origins());
            assert_eq!(answered, expected, "{}, index {index}", kind.name());
        }
    }
    assert!(lists > 1_000, "{lists} lists");
}

fn decoded(answer: &[u8]) -> Answer {
    Answer::decode(answer).expect("these are an answer's bytes").expect("no refusal's")
}

/// Whether an answer lists nothing, or every part of the frame and no overlay.
fn is_told(frame: &[u8], answer: &Answer) -> bool {
    let Answer::Listed { parts: listed, .. } = answer else {
        return true;
    };
    let parts = Frame::decode(frame).map_or(0, |frame| frame.parts.len());
    listed.len() == parts && !listed.iter().any(|part| matches!(part.listed, Listed::Overlay(_)))
}

#[test]
fn lines_agree() {
    let lines =
        b"0600000000000000000000000000000000000000000000000024400000000000002440000000000000000000\n03\n0g\n0\n\n03";
    let mut printed = Vec::new();
    baseline::run(&lines[..], &mut printed).unwrap();
    assert_eq!(printed, oracle::lines(lines));
    assert_eq!(printed.iter().filter(|&&byte| byte == b'\n').count(), 6);
}
