//! The generator meets every limit of frames and calls from both sides, and 18 and 22 at their last byte.

use std::collections::BTreeSet;

use formats::calls::{SliceCall, MOST_COORDINATES};
use formats::closed_length;
use formats::frame::Frame;
use generator::{Kind, Specimen, Style};

/// What a frame has at a limit.
#[derive(Clone, Copy, Debug, PartialEq, Eq, PartialOrd, Ord)]
enum Measure {
    Length(usize),
    KindByte(u8),
    FlagsByte(u8),
    /// The part count, first ring count and first coordinate count that it states.
    Parts(usize),
    Rings(usize),
    Coordinates(usize),
    /// A whole frame but for so many bytes behind it.
    BytesBehind(usize),
    /// Output bytes that are missing, with the first ring count.
    RoomMissing {
        rings: usize,
        bytes: usize,
    },
}

use Measure::*;

#[test]
fn frames_meet_their_limits() {
    let met = met();
    for (measure, refusal) in [
        (Length(43), 11),
        (Length(5_121), 11),
        (KindByte(2), 12),
        (KindByte(4), 12),
        (KindByte(5), 12),
        (KindByte(7), 12),
        (FlagsByte(4), 13),
        (FlagsByte(255), 13),
        (Parts(0), 14),
        (Parts(257), 14),
        (Rings(0), 16),
        (Rings(65), 16),
        (Coordinates(4_096), 15),
        (Coordinates(4_097), 17),
        (BytesBehind(1), 18),
        (RoomMissing { rings: 1, bytes: 1 }, 22),
        (RoomMissing { rings: 64, bytes: 1 }, 22),
    ] {
        assert!(met.contains(&(measure, Some(refusal))), "no frame with {measure:?} is refused with {refusal}");
    }
    for measure in [
        Length(44),
        Length(5_120),
        KindByte(3),
        KindByte(6),
        FlagsByte(0),
        FlagsByte(3),
        Parts(0),
        Parts(256),
        Rings(1),
        Rings(64),
        Coordinates(0),
        Coordinates(317),
        RoomMissing { rings: 1, bytes: 0 },
        RoomMissing { rings: 64, bytes: 0 },
    ] {
        assert!(met.contains(&(measure, None)), "no frame with {measure:?} is answered");
    }
}

/// Every measure that the frames of these kinds had, with the refusal or none.
fn met() -> BTreeSet<(Measure, Option<u8>)> {
    let kinds = [Kind::Limits, Kind::Parts, Kind::Damaged, Kind::Drawn(Style::Long)];
    let specimens = kinds.iter().flat_map(|&kind| (0..10_000).map(move |index| generator::frame(kind, 1, index)));
    specimens
        .flat_map(|specimen| {
            let refusal = refusal(&specimen);
            measures(&specimen).into_iter().map(move |measure| (measure, refusal))
        })
        .collect()
}

fn refusal(Specimen { frame, room }: &Specimen) -> Option<u8> {
    match Frame::decode(frame) {
        Err(refusal) => Some(refusal),
        Ok(frame) => (*room < frame.room()).then_some(22),
    }
}

fn measures(Specimen { frame, room }: &Specimen) -> Vec<Measure> {
    let byte = |at: usize| frame.get(at).copied();
    let count = |at: usize| frame.get(at..at + 2).map(|bytes| usize::from(u16::from_le_bytes([bytes[0], bytes[1]])));
    let rings = count(44);
    let asked = Frame::decode(frame).map(|frame| frame.room()).ok();
    let missing = |rings: usize| asked?.checked_sub(*room).map(|bytes| RoomMissing { rings, bytes });
    let whole_before_last = frame.split_last().is_some_and(|(_, before)| Frame::decode(before).is_ok());
    [
        Some(Length(frame.len())),
        byte(0).map(KindByte),
        byte(1).map(FlagsByte),
        count(42).map(Parts),
        rings.map(Rings),
        count(46).map(Coordinates),
        whole_before_last.then_some(BytesBehind(1)),
        rings.and_then(missing),
    ]
    .into_iter()
    .flatten()
    .collect()
}

#[test]
fn ring_calls_meet_their_limit() {
    let met: BTreeSet<(usize, Option<u8>)> = (0..20_000)
        .map(|index| generator::ring_call(Style::Grid, 1, index))
        .map(|call| (call.ring.len() / 2, call.refusal()))
        .collect();
    assert!(met.contains(&(MOST_COORDINATES, None)));
    assert!(met.contains(&(MOST_COORDINATES + 1, Some(20))));
}

#[test]
fn slice_calls_meet_their_limits() {
    let calls = (0..20_000).map(|index| generator::slice_call(Style::Grid, 1, index));
    let met: BTreeSet<(usize, usize, Option<u8>)> = calls.map(|call| measured(&call)).collect();
    let is_met = |rings: fn(usize) -> bool, coordinates: usize, refusal: Option<u8>| {
        met.iter().any(|&(r, c, given)| rings(r) && c == coordinates && given == refusal)
    };
    assert!(is_met(|rings| rings == 1, MOST_COORDINATES, None));
    assert!(is_met(|rings| rings == 1, MOST_COORDINATES + 1, Some(20)));
    assert!(is_met(|rings| rings > 1, MOST_COORDINATES, None));
    assert!(is_met(|rings| rings > 1, MOST_COORDINATES + 1, Some(20)));
    assert!(met.iter().any(|&(rings, _, refusal)| rings == 64 && refusal.is_none()));
    assert!(met.iter().any(|&(rings, _, refusal)| rings == 65 && refusal == Some(19)));
}

/// The count of rings, of coordinates after closing where the lengths fit, and the refusal.
fn measured(call: &SliceCall) -> (usize, usize, Option<u8>) {
    match call.rings() {
        Err(refusal) => (call.lengths.len(), 0, Some(refusal)),
        Ok(rings) => (rings.len(), rings.iter().map(|ring| closed_length(ring)).sum(), call.refusal(&rings)),
    }
}
