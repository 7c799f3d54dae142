//! What the crate `ringcut` reads and builds against `formats`, the share that every test run takes; and mistaken readers and builders put
//! in its place, each of which is found.

use compare::campaign::Campaign;
use formats::answer::{Answer, Fault, Listed, ListedPart};
use formats::building::{Building, Built, Limits};
use formats::frame::{Frame, LONGEST, MULTIPOLYGON, POLYGON, SHORTEST};
use formats::{Coord, Refusal};
use generator::BuildingKind;
use port::values::{answers, building, counted, frames, BuildFrame, ReadAnswer, ReadFrame, ReadPrinted, Values};

const RIGHT: Values = Values::OF_CRATE;

fn assert_seen(campaign: &Campaign, answers: &[&str]) {
    let missing: Vec<_> = answers.iter().filter(|answer| campaign.times(answer) == 0).collect();
    assert!(missing.is_empty(), "never seen: {missing:?}");
}

#[test]
fn frames_are_read_as_formats_reads_them() {
    let campaign = frames::compare(RIGHT, 1, 3_000);
    campaign.assert_agreed(frames::KINDS * 3_000);
    assert_seen(&campaign, &["read", "11", "12", "13", "14", "15", "16", "17", "18"]);
}

#[test]
fn frames_are_built_as_formats_builds_them() {
    let campaign = building::compare(RIGHT, 1, 20_000);
    campaign.assert_agreed(BuildingKind::ALL.len() as u64 * 20_000);
    assert_seen(&campaign, &["built", "11", "14", "16", "17", "19", "22"]);
}

#[test]
fn answers_are_read_as_formats_reads_them() {
    let campaign = answers::compare(RIGHT, 1, 3_000);
    campaign.assert_agreed(answers::KINDS * 3_000);
    assert_seen(&campaign, &Fault::ALL.map(Fault::name));
    assert_seen(&campaign, &["nothing", "dropped", "unchanged", "part unchanged", "cut"]);
    assert_seen(&campaign, &["10", "11", "12", "13", "14", "15", "16", "17", "18", "22"]);
    assert_seen(&campaign, &["reason 1", "reason 2", "reason 3", "reason 4", "reason 5", "reason 6"]);
    assert_seen(&campaign, &["reason 7", "reason 8", "reason 9", "reason 10"]);
}

/// How many specimens of each kind are enough to find every mistake.
const ENOUGH: u64 = 2_000;

fn assert_found(mistake: &str, compare: fn(Values, u64, u64) -> Campaign, mistaken: Values) {
    let campaign = compare(mistaken, 1, ENOUGH);
    let difference = campaign.difference().unwrap_or_else(|| panic!("not found: {mistake}"));
    assert!(!difference.ends_with("panicked"), "{mistake}: {difference}");
}

fn exchanged((x, y): Coord) -> Coord {
    (y, x)
}

/// The reader, but that it changes the frame so.
fn changed_frame(bytes: &[u8], change: fn(&mut Frame)) -> Result<Frame, Refusal> {
    let mut frame = (RIGHT.read_frame)(bytes)?;
    change(&mut frame);
    Ok(frame)
}

/// The reader, but that it changes each ring so.
fn changed_rings(bytes: &[u8], change: fn(&mut Vec<Coord>)) -> Result<Frame, Refusal> {
    let mut frame = (RIGHT.read_frame)(bytes)?;
    frame.parts.iter_mut().flatten().for_each(change);
    Ok(frame)
}

/// The reader, but that it takes the one refusal for the other.
fn other_refusal<const ONE: Refusal, const OTHER: Refusal>(bytes: &[u8]) -> Result<Frame, Refusal> {
    (RIGHT.read_frame)(bytes).map_err(|refusal| if refusal == ONE { OTHER } else { refusal })
}

const MISTAKEN_READERS_OF_FRAMES: [(&str, ReadFrame); 22] = [
    ("x and y exchanged", |bytes| changed_rings(bytes, |ring| ring.iter_mut().for_each(|c| *c = exchanged(*c)))),
    ("south and east exchanged", |bytes| changed_frame(bytes, |frame| frame.bounds.swap(1, 2))),
    ("the buffer for the north bound", |bytes| changed_frame(bytes, |frame| frame.bounds[3] = frame.buffer)),
    ("no buffer", |bytes| changed_frame(bytes, |frame| frame.buffer = 0.0)),
    ("the second flag lost", |bytes| changed_frame(bytes, |frame| frame.flags &= 1)),
    ("every frame a polygon", |bytes| changed_frame(bytes, |frame| frame.kind = POLYGON)),
    ("the last part left out", |bytes| changed_frame(bytes, |frame| drop(frame.parts.pop()))),
    ("parts turned round", |bytes| changed_frame(bytes, |frame| frame.parts.reverse())),
    ("a hole left out", |bytes| changed_frame(bytes, |frame| frame.parts.iter_mut().for_each(|p| p.truncate(1)))),
    ("empty rings left out", |bytes| {
        changed_frame(bytes, |frame| frame.parts.iter_mut().for_each(|part| part.retain(|ring| !ring.is_empty())))
    }),
    ("the last coordinate left out", |bytes| changed_rings(bytes, |ring| ring.truncate(ring.len().saturating_sub(1)))),
    ("no negative zero", |bytes| changed_rings(bytes, |ring| ring.iter_mut().for_each(|(x, _)| *x += 0.0))),
    ("the bits of a NaN lost", |bytes| {
        changed_rings(bytes, |ring| ring.iter_mut().filter(|(x, _)| x.is_nan()).for_each(|(x, _)| *x = f64::NAN))
    }),
    ("a byte behind taken", |bytes| match (RIGHT.read_frame)(bytes) {
        Err(18) => (RIGHT.read_frame)(&bytes[..bytes.len() - 1]),
        read => read,
    }),
    ("5,120 bytes refused", |bytes| if bytes.len() == LONGEST { Err(11) } else { (RIGHT.read_frame)(bytes) }),
    ("44 bytes refused", |bytes| if bytes.len() == SHORTEST { Err(11) } else { (RIGHT.read_frame)(bytes) }),
    ("what is over 5,120 bytes left off", |bytes| (RIGHT.read_frame)(&bytes[..bytes.len().min(LONGEST)])),
    ("12 for 13", other_refusal::<13, 12>),
    ("14 for 15", other_refusal::<15, 14>),
    ("15 for 17", other_refusal::<17, 15>),
    ("16 for 18", other_refusal::<18, 16>),
    ("15 for 16", other_refusal::<16, 15>),
];

#[test]
fn mistaken_readers_of_frames_are_found() {
    for (mistake, read_frame) in MISTAKEN_READERS_OF_FRAMES {
        assert_found(mistake, frames::compare, Values { read_frame, ..RIGHT });
    }
}

/// The model of a builder by mistaken limits.
fn by_limits(building: &Building, change: fn(&mut Limits)) -> Built {
    let mut limits = Limits::RIGHT;
    change(&mut limits);
    building.built(limits)
}

/// The builder, but that its frame is changed so where a part was refused.
fn changed_if_refused(building: &Building, change: fn(&mut Vec<u8>)) -> Built {
    let mut built = (RIGHT.build_frame)(building);
    if let (true, Ok(frame)) = (built.refused.iter().any(Option::is_some), &mut built.frame) {
        change(frame);
    }
    built
}

/// The builder, but that its parts are changed so before they come to it.
fn of_changed_parts(building: &Building, change: fn(&mut Building)) -> Built {
    let mut changed = building.clone();
    change(&mut changed);
    (RIGHT.build_frame)(&changed)
}

const MISTAKEN_BUILDERS: [(&str, BuildFrame); 19] = [
    ("257 parts taken", |building| by_limits(building, |limits| limits.parts += 1)),
    ("256 parts refused", |building| by_limits(building, |limits| limits.parts -= 1)),
    ("65 rings taken", |building| by_limits(building, |limits| limits.rings += 1)),
    ("64 rings refused", |building| by_limits(building, |limits| limits.rings -= 1)),
    ("4,097 coordinates come to the room", |building| by_limits(building, |limits| limits.coordinates += 1)),
    ("4,096 coordinates refused", |building| by_limits(building, |limits| limits.coordinates -= 1)),
    ("5,122 bytes taken", |building| by_limits(building, |limits| limits.size += 2)),
    ("5,120 bytes refused", |building| by_limits(building, |limits| limits.size -= 2)),
    ("the room's last byte not asked for", |building| of_changed_parts(building, |changed| changed.room += 1)),
    ("a byte of room too much asked for", |building| {
        of_changed_parts(building, |changed| changed.room = changed.room.saturating_sub(1))
    }),
    ("an odd number left off", |building| {
        of_changed_parts(building, |changed| {
            changed.parts.iter_mut().flatten().for_each(|ring| ring.truncate(ring.len() / 2 * 2))
        })
    }),
    ("a hole left out", |building| {
        of_changed_parts(building, |changed| changed.parts.iter_mut().for_each(|part| part.truncate(1)))
    }),
    ("x and y exchanged", |building| {
        of_changed_parts(building, |changed| {
            let rings = changed.parts.iter_mut().flatten();
            rings.for_each(|ring| ring.chunks_exact_mut(2).for_each(|pair| pair.swap(0, 1)));
        })
    }),
    ("no parts for a multipolygon's frame refused", |building| {
        let built = (RIGHT.build_frame)(building);
        let is_empty = building.kind == MULTIPOLYGON && building.parts.is_empty();
        Built { frame: if is_empty { Err(14) } else { built.frame }, ..built }
    }),
    ("a polygon without its part taken", |building| {
        let built = (RIGHT.build_frame)(building);
        Built { frame: if built.frame == Err(14) { Ok(Vec::new()) } else { built.frame }, ..built }
    }),
    ("a refused part counted", |building| changed_if_refused(building, |frame| frame[42] ^= 1)),
    ("a refused part left in the frame", |building| changed_if_refused(building, |frame| frame.extend([1, 0]))),
    ("no part behind a refused one", |building| {
        let mut built = (RIGHT.build_frame)(building);
        let first = built.refused.iter().position(Option::is_some);
        first.into_iter().for_each(|first| built.refused[first + 1..].fill(Some(14)));
        built
    }),
    ("11 for 22", |building| {
        let mut built = (RIGHT.build_frame)(building);
        built.refused.iter_mut().filter(|refused| **refused == Some(22)).for_each(|refused| *refused = Some(11));
        built
    }),
];

#[test]
fn mistaken_builders_are_found() {
    for (mistake, build_frame) in MISTAKEN_BUILDERS {
        assert_found(mistake, building::compare, Values { build_frame, ..RIGHT });
    }
}

/// A frame that is read is built again.
#[test]
fn a_mistaken_builder_is_found_where_frames_are_read() {
    let build_frame = |building: &Building| of_changed_parts(building, |changed| drop(changed.parts.pop()));
    assert_found("the last part left off", frames::compare, Values { build_frame, ..RIGHT });
}

/// The reader, but that it changes each listed part so.
fn changed_parts(bytes: &[u8], change: fn(&mut ListedPart)) -> Result<Answer, Fault> {
    let mut answer = (RIGHT.read_answer)(bytes)?;
    if let Answer::Listed { parts, .. } = &mut answer {
        parts.iter_mut().for_each(change);
    }
    Ok(answer)
}

/// The reader, but that it changes each vertex of a cut so.
fn changed_vertices(bytes: &[u8], change: fn(&mut Coord, &mut u16)) -> Result<Answer, Fault> {
    let mut answer = (RIGHT.read_answer)(bytes)?;
    if let Answer::Listed { parts, .. } = &mut answer {
        for part in parts {
            let Listed::Cut(rings) = &mut part.listed else { continue };
            for cut in rings {
                cut.ring.iter_mut().zip(&mut cut.origins).for_each(|(coord, origin)| change(coord, origin));
            }
        }
    }
    Ok(answer)
}

/// The reader, but that it changes a guard count that may be any so.
fn changed_guard_count(bytes: &[u8], change: fn(u16, &[u8]) -> u16) -> Result<Answer, Fault> {
    let mut answer = (RIGHT.read_answer)(bytes)?;
    if let Answer::Nothing { guard_count } | Answer::Listed { guard_count, .. } = &mut answer {
        *guard_count = change(*guard_count, bytes);
    }
    Ok(answer)
}

/// The reader, but that it takes one fault for the next.
fn other_fault<const FAULT: usize>(bytes: &[u8]) -> Result<Answer, Fault> {
    let other = Fault::ALL[(FAULT + 1) % Fault::ALL.len()];
    (RIGHT.read_answer)(bytes).map_err(|fault| if fault == Fault::ALL[FAULT] { other } else { fault })
}

fn has_ring_of_four(part: &ListedPart) -> bool {
    matches!(&part.listed, Listed::Cut(rings) if rings.iter().any(|cut| cut.ring.len() == 4))
}

const MISTAKEN_READERS_OF_ANSWERS: [(&str, ReadAnswer); 28] = [
    ("x and y exchanged", |bytes| changed_vertices(bytes, |coord, _| *coord = exchanged(*coord))),
    ("an origin read big-endian", |bytes| changed_vertices(bytes, |_, origin| *origin = origin.swap_bytes())),
    ("Left for Right", |bytes| changed_vertices(bytes, |_, origin| *origin -= u16::from(*origin == 65_533))),
    ("the bits of a NaN lost", |bytes| {
        changed_vertices(bytes, |(x, _), _| {
            if x.is_nan() {
                *x = f64::NAN
            }
        })
    }),
    ("no negative zero", |bytes| changed_vertices(bytes, |(_, y), _| *y += 0.0)),
    ("a part's number one too high", |bytes| changed_parts(bytes, |part| part.index += 1)),
    ("a hole left out", |bytes| {
        changed_parts(bytes, |part| {
            if let Listed::Cut(rings) = &mut part.listed {
                rings.truncate(1)
            }
        })
    }),
    ("positions exchanged", |bytes| {
        changed_parts(bytes, |part| {
            if let Listed::Overlay(reason) = &mut part.listed {
                (reason.first, reason.second) = (reason.second, reason.first);
            }
        })
    }),
    ("one byte of a position", |bytes| {
        changed_parts(bytes, |part| {
            if let Listed::Overlay(reason) = &mut part.listed {
                reason.second &= 255
            }
        })
    }),
    ("9 for 7", |bytes| {
        changed_parts(bytes, |part| match &mut part.listed {
            Listed::Overlay(reason) if reason.number == 7 => reason.number = 9,
            _ => {}
        })
    }),
    ("every cut unchanged", |bytes| {
        changed_parts(bytes, |part| {
            if let Listed::Cut(_) = part.listed {
                part.listed = Listed::Unchanged
            }
        })
    }),
    ("no guard count", |bytes| changed_guard_count(bytes, |_, _| 0)),
    ("one byte of the guard count", |bytes| changed_guard_count(bytes, |count, _| count & 255)),
    ("the guard count of the wrong bytes", |bytes| changed_guard_count(bytes, |_, bytes| bytes[3].into())),
    ("rings of four refused", |bytes| match (RIGHT.read_answer)(bytes)? {
        Answer::Listed { parts, .. } if parts.iter().any(has_ring_of_four) => Err(Fault::CoordinateCount),
        answer => Ok(answer),
    }),
    ("256 parts dropped and listed refused", |bytes| match (RIGHT.read_answer)(bytes)? {
        Answer::Listed { guard_count, parts } if usize::from(guard_count) + parts.len() == 256 => {
            Err(Fault::GuardCount)
        }
        answer => Ok(answer),
    }),
    ("257 parts dropped and listed taken", |bytes| match (RIGHT.read_answer)(bytes) {
        Err(Fault::GuardCount) if bytes[0] == 3 => (RIGHT.read_answer)(&[&[3, 0, 0], &bytes[3..]].concat()),
        read => read,
    }),
    ("bytes behind taken", |bytes| match (RIGHT.read_answer)(bytes) {
        Err(Fault::Trailing) => (RIGHT.read_answer)(&bytes[..bytes.len() - 1]),
        read => read,
    }),
    ("another fault for Truncated", other_fault::<0>),
    ("another fault for Number", other_fault::<1>),
    ("another fault for GuardCount", other_fault::<2>),
    ("another fault for ListedCount", other_fault::<3>),
    ("another fault for PartNumber", other_fault::<4>),
    ("another fault for PartAnswer", other_fault::<5>),
    ("another fault for Reason", other_fault::<6>),
    ("another fault for RingCount", other_fault::<7>),
    ("another fault for CoordinateCount", other_fault::<8>),
    ("another fault for Trailing", other_fault::<9>),
];

#[test]
fn mistaken_readers_of_answers_are_found() {
    for (mistake, read_answer) in MISTAKEN_READERS_OF_ANSWERS {
        assert_found(mistake, answers::compare, Values { read_answer, ..RIGHT });
    }
}

const MISTAKEN_READERS_OF_PRINTED: [(&str, ReadPrinted); 5] = [
    ("no refusal known", |bytes| (RIGHT.read_answer)(bytes).map(Ok)),
    ("19 taken", |bytes| if bytes == [19, 0, 0, 0, 0] { Ok(Err(19)) } else { (RIGHT.read_printed)(bytes) }),
    ("11 for 10", |bytes| Ok((RIGHT.read_printed)(bytes)?.map_err(|refusal| refusal.max(11)))),
    ("any bytes behind a refusal", |bytes| match bytes {
        &[refusal @ 10..=18, _, _, _, _, ..] => Ok(Err(refusal)),
        _ => (RIGHT.read_printed)(bytes),
    }),
    ("every answer unchanged", |bytes| Ok((RIGHT.read_printed)(bytes)?.map(|_| Answer::Unchanged))),
];

#[test]
fn mistaken_readers_of_what_is_printed_are_found() {
    for (mistake, read_printed) in MISTAKEN_READERS_OF_PRINTED {
        assert_found(mistake, answers::compare, Values { read_printed, ..RIGHT });
    }
}

#[test]
fn mistaken_calls_that_read_the_answer_are_found() {
    let every_one_unchanged = Values { answer_frame: |_, _| Ok(Answer::Unchanged), ..RIGHT };
    let with_more_room = Values { answer_frame: |frame, room| (RIGHT.answer_frame)(frame, room + 1), ..RIGHT };
    assert_found("every answer unchanged", answers::compare, every_one_unchanged);
    assert_found("the room's last byte not asked for", answers::compare, with_more_room);
}

/// Yields as many as are left, whatever it says.
struct Miscounted {
    said: usize,
    left: usize,
}

impl Iterator for Miscounted {
    type Item = ();

    fn next(&mut self) -> Option<()> {
        self.said = self.said.saturating_sub(1);
        self.left = self.left.checked_sub(1)?;
        Some(())
    }

    fn size_hint(&self) -> (usize, Option<usize>) {
        (self.said, Some(self.said))
    }
}

impl ExactSizeIterator for Miscounted {}

#[test]
fn a_wrong_count_is_found() {
    assert_eq!(counted(Miscounted { said: 3, left: 3 }).len(), 3);
    for left in [2, 4] {
        assert!(std::panic::catch_unwind(|| counted(Miscounted { said: 3, left })).is_err(), "{left}");
    }
}
