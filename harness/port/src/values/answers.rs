//! Answers as they are read, those of the library, the same harmed, and some that nobody gave: the same fault as `formats` finds, or the
//! same values bit for bit.

use compare::campaign::{self, Campaign, Checked};
use compare::frames::{kinds, label, refusal_label};
use compare::hex;
use formats::answer::{Answer, Fault, Listed, ListedPart};
use formats::Refusal;
use generator::{AnswerKind, Harm, Kind, Specimen};
use ringcut::{cut_frame, MOST_FRAME_OUTPUT};

use super::{Printed, Values};

#[derive(Clone, Copy)]
enum Source {
    Given(Kind),
    Harmed(Harm),
    Nobodys(AnswerKind),
}

fn sources() -> Vec<(&'static str, Source)> {
    let given = kinds().into_iter().map(|(name, kind)| (name, Source::Given(kind)));
    let harmed = Harm::ALL.into_iter().map(|harm| (harm.name(), Source::Harmed(harm)));
    given.chain(harmed).chain(AnswerKind::ALL.into_iter().map(|kind| (kind.name(), Source::Nobodys(kind)))).collect()
}

/// How many kinds of answers there are.
pub const KINDS: u64 = (Kind::ALL.len() + Harm::ALL.len() + AnswerKind::ALL.len()) as u64;

/// `count` answers of each kind.
pub fn compare(values: Values, seed: u64, count: u64) -> Campaign {
    campaign::run("answer values", seed, count, &sources(), |source, index| match source {
        Source::Given(kind) => check_given(values, &generator::frame(kind, seed, index)),
        Source::Harmed(harm) => {
            let kind = Kind::ALL[index as usize % Kind::ALL.len()];
            let given = printed(&generator::frame(kind, seed, index).frame);
            check(values, &generator::harmed_answer(harm, &given, seed, index))
        }
        Source::Nobodys(kind) => check(values, &generator::answer(kind, seed, index)),
    })
}

/// What the library answers a frame, in bytes.
fn given(frame: &[u8], room: usize) -> Result<Vec<u8>, Refusal> {
    let mut out = vec![0; room];
    let len = cut_frame(frame, &mut out).map_err(ringcut::Refusal::number)?;
    out.truncate(len);
    Ok(out)
}

/// What the program prints for a frame, in bytes: it lends room for every answer.
fn printed(frame: &[u8]) -> Vec<u8> {
    given(frame, MOST_FRAME_OUTPUT).unwrap_or_else(|refusal| vec![refusal, 0, 0, 0, 0])
}

/// The library's answer to one frame, which is read, by itself and by the call that reads it at once.
fn check_given(values: Values, Specimen { frame, room }: &Specimen) -> Checked {
    let given = given(frame, *room);
    let read = given.clone().map(|bytes| Answer::read(&bytes).expect("the library gives answers"));
    let at_once = (values.answer_frame)(frame, *room);
    if at_once.as_ref().map(said) != read.as_ref().map(said) {
        return Err(format!("frame {}, room {room}: answered {at_once:?}, and is {read:?}", hex(frame)));
    }
    match given {
        Ok(bytes) => check(values, &bytes),
        Err(22) => Ok(refusal_label(22)),
        Err(refusal) => check(values, &[refusal, 0, 0, 0, 0]),
    }
}

/// The bytes of what may be an answer, counted as what is printed.
pub fn check(values: Values, bytes: &[u8]) -> Checked {
    let (right, read) = (Answer::read(bytes), (values.read_answer)(bytes));
    if right.as_ref().map(said) != read.as_ref().map(said) {
        return Err(format!("answer {}: read as {read:?}, and is {right:?}", hex(bytes)));
    }
    let (right, read) = (Answer::read_printed(bytes), (values.read_printed)(bytes));
    if said_printed(&right) != said_printed(&read) {
        return Err(format!("answer {}, printed: read as {read:?}, and is {right:?}", hex(bytes)));
    }
    Ok(match right {
        Err(fault) => fault.name(),
        Ok(Err(refusal)) => refusal_label(refusal),
        Ok(Ok(_)) => label(&Ok(bytes.to_vec())),
    })
}

fn said_printed(printed: &Result<Printed, Fault>) -> Result<Result<Vec<u64>, Refusal>, Fault> {
    printed.as_ref().map(|printed| printed.as_ref().map(said).map_err(|&refusal| refusal)).map_err(|&fault| fault)
}

/// All that an answer says, number by number: two are the same exactly where these are, a NaN's bits too.
fn said(answer: &Answer) -> Vec<u64> {
    match answer {
        Answer::Nothing { guard_count } => vec![0, u64::from(*guard_count)],
        Answer::Dropped => vec![1],
        Answer::Unchanged => vec![2],
        Answer::Listed { guard_count, parts } => {
            let mut numbers = vec![3, u64::from(*guard_count), parts.len() as u64];
            parts.iter().for_each(|part| say_part(part, &mut numbers));
            numbers
        }
    }
}

fn say_part(ListedPart { index, listed }: &ListedPart, numbers: &mut Vec<u64>) {
    numbers.push(u64::from(*index));
    match listed {
        Listed::Unchanged => numbers.push(2),
        Listed::Overlay(reason) => {
            numbers.extend([5, reason.number.into(), reason.first.into(), reason.second.into()]);
        }
        Listed::Cut(rings) => {
            numbers.extend([4, rings.len() as u64]);
            for cut in rings {
                numbers.push(cut.ring.len() as u64);
                numbers.extend(cut.vertices().flat_map(|((x, y), origin)| [x.to_bits(), y.to_bits(), origin.into()]));
            }
        }
    }
}
