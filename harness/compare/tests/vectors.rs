//! The lines that the program replays have every answer: the four kinds, every reason and every refusal it can give. The calls
//! that are replayed have every answer with an output that is exact, longer by one and as long as it may be, and every reason.
//! Reasons that tell positions are there with other ones than 0.

use std::collections::BTreeSet;

use compare::calls::{ring_label, slice_label};
use compare::{vectors, worked};
use formats::calls::SliceAnswer;
use formats::origins::{in_words, line_of};
use formats::reason::Reason;
use formats::same_numbers;
use formats::vectors::{decode_rings, decode_slices, MOST_LENT};

#[test]
fn lines_have_every_answer() {
    let input = vectors::lines(1, 2);
    assert_ne!(input.last(), Some(&b'\n'));
    let printed = String::from_utf8(oracle::lines(&input)).unwrap();
    let answers: BTreeSet<&str> = printed.lines().map(|line| &line[..2]).collect();
    let every = (0..=3).chain(10..=18).map(|number: u8| format!("{number:02x}"));
    assert_eq!(answers, every.collect::<Vec<_>>().iter().map(String::as_str).collect());
    // The first listed part's kind and reason.
    let parts: BTreeSet<&str> = printed.lines().filter_map(|line| line.get(14..18)).collect();
    let overlays = (1..=10).map(|reason: u8| format!("05{reason:02x}"));
    let every: Vec<String> = ["0200", "0400"].into_iter().map(String::from).chain(overlays).collect();
    assert_eq!(parts, every.iter().map(String::as_str).collect());
    for reason in ["0507", "0508", "0509", "050a"] {
        let told = |line: &str| line.get(14..18) == Some(reason) && line[18..22] != *"0000";
        assert!(printed.lines().any(told), "{reason} has position 0 alone");
    }
}

/// Whether the output is exactly as long as asked, longer by one, or as long as it may be.
fn room(out: usize, asked: usize) -> Option<&'static str> {
    match out {
        _ if out == asked => Some("exact"),
        _ if out == asked + 1 => Some("longer by one"),
        MOST_LENT => Some("longest"),
        _ => None,
    }
}

fn in_every_room(answers: &[&'static str]) -> BTreeSet<(&'static str, &'static str)> {
    let rooms = ["exact", "longer by one", "longest"];
    answers.iter().flat_map(|&answer| rooms.map(|room| (answer, room))).collect()
}

/// A line by its name, and corner 0 apart from others.
const EVERY_ORIGIN: [&str; 6] = ["Bottom", "Left", "Right", "Top", "corner 0", "another corner"];

fn kind_of(origin: u16) -> String {
    if origin > 0 && line_of(origin).is_none() {
        return "another corner".to_string();
    }
    in_words(origin)
}

#[test]
fn ring_calls_have_every_answer_in_every_room() {
    let vectors = decode_rings(&vectors::rings(1, 2));
    let (mut met, mut met_by_origins, mut origins) = (BTreeSet::new(), BTreeSet::new(), BTreeSet::new());
    for ((call, answer), written) in &vectors {
        let lent = [call.scratch.len(), call.origin_scratch.len(), call.out.len(), call.out_origins.len()];
        assert!(lent.iter().all(|&length| length <= MOST_LENT));
        assert_eq!(*written, if answer.is_ok() { call.room() } else { 0 });
        let Ok(cut) = answer else { continue };
        met.extend(room(call.out.len(), call.room()).map(|room| (ring_label(answer), room)));
        met_by_origins.extend(room(call.out_origins.len(), call.origin_room()).map(|room| (ring_label(answer), room)));
        origins.extend(cut.origins.iter().map(|&origin| kind_of(origin)));
    }
    assert_eq!(met, in_every_room(&["ring", "empty"]));
    assert_eq!(met_by_origins, in_every_room(&["ring", "empty"]));
    assert_eq!(origins, BTreeSet::from(EVERY_ORIGIN.map(String::from)));
    let one_vertex = worked::one_vertex();
    let is_one_vertex = |ring: &[f64], out: usize| same_numbers(ring, &one_vertex.ring) && out == one_vertex.out.len();
    assert!(vectors.iter().any(|((call, _), written)| is_one_vertex(&call.ring, call.out.len()) && *written == 6));
}

#[test]
fn slice_calls_have_every_answer_in_every_room() {
    let vectors = decode_slices(&vectors::slices(1, 2));
    let (mut met, mut reasons, mut origins) = (BTreeSet::new(), BTreeSet::new(), BTreeSet::new());
    for ((call, answer), written) in &vectors {
        let work = [call.scratch.len(), call.origin_scratch.len(), call.order.len()];
        let output = [call.out.len(), call.out_lengths.len(), call.out_origins.len()];
        assert!(work.iter().chain(&output).all(|&length| length <= MOST_LENT));
        assert_eq!(*written, if answer.is_ok() { call.room() } else { 0 });
        let label = match answer {
            Ok(SliceAnswer::Overlay(Reason { number: 2..=6 | 9 | 10, .. })) => "overlay behind a cut",
            _ => slice_label(answer),
        };
        met.extend(answer.as_ref().ok().and(room(call.out.len(), call.room())).map(|room| (label, room)));
        match answer {
            Ok(SliceAnswer::Overlay(reason)) => {
                reasons.insert((reason.number, reason.first > 0));
            }
            Ok(SliceAnswer::Cut(rings)) => {
                let of_holes = rings[1..].iter().flat_map(|hole| &hole.origins).map(|&origin| (true, kind_of(origin)));
                let of_exterior = rings[0].origins.iter().map(|&origin| (false, kind_of(origin)));
                origins.extend(of_exterior.chain(of_holes));
            }
            _ => {}
        }
    }
    for of_hole in [false, true] {
        let every = EVERY_ORIGIN.map(|origin| (of_hole, origin.to_string()));
        assert!(every.iter().all(|origin| origins.contains(origin)), "of holes: {of_hole}");
    }
    let every_reason = (1..=10).map(|number| (number, false)).chain((7..=10).map(|number| (number, true)));
    assert_eq!(reasons, every_reason.collect());
    let answers = ["nothing", "dropped", "unchanged", "cut", "overlay", "overlay behind a cut"];
    assert_eq!(met, in_every_room(&answers));
    let lone_nan = worked::lone_nan();
    let is_lone_nan = |coords: &[f64], out: usize| same_numbers(coords, &lone_nan.coords) && out == lone_nan.out.len();
    assert!(vectors.iter().any(|((call, _), written)| is_lone_nan(&call.coords, call.out.len()) && *written == 22));
}
