//! Frames as they are read, and those that are none: the same refusal as `formats` gives, or the same values bit for bit, of which the
//! builder makes the same bytes again.

use compare::campaign::{self, Campaign, Checked};
use compare::frames::{kinds, refusal_label};
use compare::hex;
use formats::building::Building;
use formats::frame::{Frame, LONGEST};
use generator::{Harm, Kind};

use super::{building, Values};

#[derive(Clone, Copy)]
enum Source {
    Drawn(Kind),
    Harmed(Harm),
    Random,
}

fn sources() -> Vec<(&'static str, Source)> {
    let drawn = kinds().into_iter().map(|(name, kind)| (name, Source::Drawn(kind)));
    let harmed = Harm::ALL.into_iter().map(|harm| (harm.name(), Source::Harmed(harm)));
    drawn.chain(harmed).chain([("random", Source::Random)]).collect()
}

/// How many kinds of frames there are.
pub const KINDS: u64 = (Kind::ALL.len() + Harm::ALL.len() + 1) as u64;

/// `count` frames of each kind.
pub fn compare(values: Values, seed: u64, count: u64) -> Campaign {
    campaign::run("frame values", seed, count, &sources(), |source, index| match source {
        Source::Drawn(kind) => check(values, &generator::frame(kind, seed, index).frame),
        Source::Harmed(harm) => check(values, &generator::harmed_frame(harm, seed, index)),
        Source::Random => check(values, &generator::random_frame(seed, index)),
    })
}

/// One frame's bytes.
pub fn check(values: Values, bytes: &[u8]) -> Checked {
    let read = (values.read_frame)(bytes);
    match (Frame::decode(bytes), read) {
        (Err(refusal), Err(other)) if refusal == other => Ok(refusal_label(refusal)),
        (Ok(frame), Ok(other)) if same(&frame, &other) => check_again(values, &frame, bytes).map(|()| "read"),
        (right, read) => Err(format!("frame {}: read as {read:?}, and is {right:?}", hex(bytes))),
    }
}

/// Bit for bit, as every number of a frame stands in its bytes.
fn same(a: &Frame, b: &Frame) -> bool {
    a.encode() == b.encode()
}

/// The values built anew: with the bytes that they need or more they are the same frame.
fn check_again(values: Values, frame: &Frame, bytes: &[u8]) -> Result<(), String> {
    for room in [bytes.len(), bytes.len() - 1, bytes.len() + 9, LONGEST] {
        let building = Building::of(frame, room);
        let built = (values.build_frame)(&building);
        building::check_built(&building, &built)?;
        if built.frame.as_deref().is_ok_and(|built| built == bytes) != (room >= bytes.len()) {
            return Err(format!("frame {}, room {room}: built as {built:?}", hex(bytes)));
        }
    }
    Ok(())
}
