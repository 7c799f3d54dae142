//! Answers in words, and what is cut as WKT.

use ringcut::{Frame, FrameAnswer, Issue, ListedPart, ListedParts, PartAnswer, Reason, Refusal, Ring, Vertex};

use crate::shared::{lines, number};
use crate::{wkt, Explained};

const NOTHING: &str = "nothing of it is left in the tile";
const DROPPED: &str = "it was dropped as a whole: a coordinate is not finite, \
                       or it is a polygon that wants an overlay and has a coordinate of magnitude 1e150 or more";
const UNCHANGED: &str = "it lies inside the tile, widened by its buffer, as a whole: it is to be drawn as it was sent";

const IS_FRAME: &str = "it is a frame: `explain frames` says it";

/// What the words behind the coordinates of a cut mean.
const ORIGINS: [&str; 2] = [
    "a corner with a number is one of the ring that was sent, counted from 0; one with a bound was made there by the cut",
    "Left, Right, Bottom and Top are the west, east, south and north bound",
];

pub fn explain(line: &[u8]) -> Explained {
    let Some(bytes) = lines::bytes_of(line) else { return no_answer(&Refusal::Digits.to_string(), None) };
    match FrameAnswer::read_printed(&bytes) {
        Ok(Ok(answer)) => words(&answer),
        Ok(Err(refusal)) => refused(refusal),
        Err(error) => no_answer(&error.to_string(), Frame::read(&bytes).is_ok().then_some(IS_FRAME)),
    }
}

/// Why it is no answer, and what it is instead, if that is known.
fn no_answer(why: &str, instead: Option<&str>) -> Explained {
    let mut lines = vec![format!("  {why}")];
    lines.extend(instead.map(|words| format!("  {words}")));
    Explained { headline: "not an answer".to_string(), lines, is_readable: false }
}

fn refused(refusal: Refusal) -> Explained {
    Explained { headline: "refused".to_string(), lines: vec![format!("  {refusal}")], is_readable: true }
}

fn words(answer: &FrameAnswer) -> Explained {
    let (headline, mut lines, as_wkt) = match answer {
        FrameAnswer::Nothing { .. } => ("nothing".to_string(), vec![format!("  {NOTHING}")], vec![]),
        FrameAnswer::Dropped => ("dropped".to_string(), vec![format!("  {DROPPED}")], vec![]),
        FrameAnswer::Unchanged => ("unchanged".to_string(), vec![format!("  {UNCHANGED}")], vec![]),
        FrameAnswer::Listed { parts, .. } => {
            let headline = match parts.len() {
                1 => "1 part is listed".to_string(),
                count => format!("{count} parts are listed"),
            };
            (headline, parts.clone().flat_map(part_words).collect(), cuts_as_wkt(parts.clone()))
        }
    };
    if !as_wkt.is_empty() {
        lines.extend(ORIGINS.map(|words| format!("  {words}")));
    }
    lines.extend(guard_words(answer));
    lines.extend(as_wkt);
    Explained { headline, lines, is_readable: true }
}

fn part_words(part: ListedPart) -> Vec<String> {
    let number = part.number;
    match part.answer {
        PartAnswer::Unchanged => vec![format!("  part {number} is unchanged: it is to be drawn as it was sent")],
        PartAnswer::Cut(rings) => {
            let rings = rings.enumerate().map(|(n, ring)| cut_words(if n == 0 { "exterior" } else { "hole" }, ring));
            [format!("  part {number} is cut")].into_iter().chain(rings).collect()
        }
        PartAnswer::Overlay(reason) => {
            let overlay = format!("  part {number}: an overlay is wanted, reason {}: {reason}", reason.number());
            [overlay].into_iter().chain(numbering(reason).map(|words| format!("    {words}"))).collect()
        }
    }
}

fn cut_words(what: &str, ring: Ring<Vertex>) -> String {
    let corner = |Vertex { x, y, origin }| format!("({},{}) {origin}", number::text(x), number::text(y));
    let corners: Vec<String> = ring.iter().map(corner).collect();
    format!("    {what}: {}", corners.join(", "))
}

/// How the corners or edges are numbered that a reason tells.
fn numbering(reason: Reason) -> Option<String> {
    let (exterior, issue) = match reason {
        Reason::Input(issue) => ("exterior", issue),
        Reason::Cut(issue) => ("cut exterior", issue),
        Reason::Bridge(_) => return None,
    };
    match issue {
        Issue::Short => None,
        Issue::Repeated { .. } => Some(format!("the corners of the {exterior} are numbered from 0")),
        Issue::Crossing { .. } => {
            Some(format!("edge k runs from corner k of the {exterior}, numbered from 0, to the next"))
        }
    }
}

fn guard_words(answer: &FrameAnswer) -> Option<String> {
    let dropped = match (answer, answer.guard_count()) {
        (_, 0) => return None,
        (FrameAnswer::Dropped, _) => "the whole counts as one".to_string(),
        (_, 1) => "1 part was dropped: it wants an overlay and has a coordinate of magnitude 1e150 or more".to_string(),
        (_, n) => {
            format!("{n} parts were dropped: each wants an overlay and has a coordinate of magnitude 1e150 or more")
        }
    };
    Some(format!("  guard count {}: {dropped}", answer.guard_count()))
}

fn cuts_as_wkt(parts: ListedParts) -> Vec<String> {
    let mut lines = Vec::new();
    for ListedPart { number, answer } in parts {
        let PartAnswer::Cut(rings) = answer else { continue };
        let rings: Vec<wkt::Ring> =
            rings.map(|ring| ring.iter().map(|corner| [corner.x, corner.y]).collect()).collect();
        lines.extend(wkt::polygon(&format!("part {number} "), &rings));
    }
    lines
}
