//! The frame entry: its answer and every byte of the output, against the oracle's, and its origins besides.

use compare::campaign::{self, Campaign, Checked};
use compare::frames::{kinds, label};
use compare::hex;
use compare::origins::broken_frame;
use compare::shrink::shrink;
use formats::frame::Frame;
use formats::Refusal;
use generator::Specimen;

use crate::calls;

/// How much more than it asks for a frame is lent too.
const SPARE: usize = 100;

/// `count` frames of each kind.
pub fn compare(seed: u64, count: u64) -> Campaign {
    campaign::run("port frames", seed, count, &kinds(), |kind, index| check(&generator::frame(kind, seed, index)))
}

/// One frame with the room lent for its answer; one that can be read also with exactly the room it asks for, a byte less and
/// some more. Where it differs from the oracle it is made as small as it gets.
pub fn check(specimen: &Specimen) -> Checked {
    differences(specimen).or_else(|_| {
        let smallest = shrink(specimen.clone(), |specimen| differences(specimen).is_err());
        differences(&smallest)
    })
}

/// The oracle's answer in a word, or how the port's differs from it in one of the rooms.
fn differences(Specimen { frame, room }: &Specimen) -> Checked {
    let asked = Frame::decode(frame).map(|frame| frame.room());
    let rooms = match asked {
        Ok(asked) => vec![*room, asked, asked - 1, asked + SPARE],
        Err(_) => vec![*room, 0],
    };
    let answer = oracle::answer(frame, usize::MAX);
    let in_room = |room: usize| if asked.is_ok_and(|asked| room < asked) { Err(22) } else { answer.clone() };
    for &room in &rooms {
        check_in(frame, room, &in_room(room))?;
    }
    Ok(label(&in_room(*room)))
}

/// One call with an output of `room` bytes, held to an answer and to what that answer leaves in the output.
pub fn check_in(frame: &[u8], room: usize, expected: &Result<Vec<u8>, Refusal>) -> Result<(), String> {
    let lent: Vec<u8> = (0..room).map(unwritten).collect();
    let (code, bytes) = match expected {
        Err(refusal) => (-i64::from(*refusal), &[][..]),
        Ok(bytes) => (bytes.len() as i64, &bytes[..]),
    };
    let mut out = lent.clone();
    let answer = calls::frame(frame, &mut out);
    if answer == code && out.starts_with(bytes) && out[bytes.len()..] == lent[bytes.len()..] {
        let answered = usize::try_from(answer).ok().map(|length| &out[..length]);
        let broken = answered.and_then(|bytes| broken_frame(frame, bytes));
        return broken.map_or(Ok(()), |broken| Err(format!("room {room}, frame {}: {broken}", hex(frame))));
    }
    let place = (0..room).find(|&k| out[k] != *bytes.get(k).unwrap_or(&lent[k]));
    Err(format!(
        "room {room}, frame {}: answer {answer} and {code}, first other byte of the output {place:?}",
        hex(frame)
    ))
}

/// What stands at a place of an output before a call: neighbours differ, and nothing is zero for long.
fn unwritten(place: usize) -> u8 {
    place as u8 ^ 0xa5
}
