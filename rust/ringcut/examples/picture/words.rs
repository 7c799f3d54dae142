//! What is answered, in sentences to read out, and what a drawing leaves out.

use std::collections::BTreeSet;

use ringcut::{Bounds, Frame, FrameAnswer, PartAnswer};

use crate::area::Misfit;
use crate::shared::{self, number};
use crate::view::{drawable, View};

/// More sentences on parts, more numbers in one, more corners that can't be drawn and more of what is left out are only counted.
const MOST_SENTENCES: usize = 10;
const MOST_NUMBERS: usize = 12;
const MOST_CORNERS: usize = 3;
const MOST_LEFT_OUT: usize = 4;

/// The flags, and the buffer if there is one.
pub fn of_settings(frame: &Frame) -> String {
    let flags = shared::words::flags(frame.flags);
    if frame.buffer == 0.0 {
        flags
    } else {
        format!("{flags}; buffer {}", number::text(frame.buffer))
    }
}

/// The answer to a frame with these corners that can't be drawn.
pub fn of_answer(frame: &Frame, misfits: &[Misfit], answer: &FrameAnswer) -> Vec<String> {
    let inside = if frame.buffer == 0.0 { "inside the tile" } else { "inside the tile with its buffer" };
    match answer {
        FrameAnswer::Unchanged => vec![format!("unchanged as a whole: it lies {inside}")],
        FrameAnswer::Dropped => vec![format!("dropped as a whole: {}", why_dropped(misfits))],
        FrameAnswer::Nothing { guard_count: 0 } => vec!["nothing of it is left in the tile".to_string()],
        FrameAnswer::Nothing { .. } | FrameAnswer::Listed { .. } => of_parts(frame, misfits, answer),
    }
}

/// What is not finite drops the whole before anything else is looked at.
fn why_dropped(misfits: &[Misfit]) -> String {
    let not_finite = misfits.iter().find(|misfit| !misfit.is_finite());
    match (not_finite, misfits.first()) {
        (Some(misfit), _) => format!("{} is not finite", misfit.name()),
        (None, Some(misfit)) => {
            format!(
                "an overlay is wanted, and {} is of magnitude 1e150 or more, which an overlay can't take",
                misfit.name()
            )
        }
        (None, None) => "a coordinate can't be cut".to_string(),
    }
}

/// A sentence for each group of parts that the same is said of.
fn of_parts(frame: &Frame, misfits: &[Misfit], answer: &FrameAnswer) -> Vec<String> {
    let mut groups: Vec<(String, Vec<usize>)> = Vec::new();
    let mut said = answers_by_part(frame, misfits, answer);
    said.sort_by_key(|&(number, _)| number);
    for (number, words) in said {
        match groups.iter_mut().find(|(group, _)| *group == words) {
            Some((_, numbers)) => numbers.push(number),
            None => groups.push((words, vec![number])),
        }
    }
    let more: usize = groups.iter().skip(MOST_SENTENCES).map(|(_, numbers)| numbers.len()).sum();
    let mut sentences: Vec<String> = groups
        .into_iter()
        .take(MOST_SENTENCES)
        .map(|(words, numbers)| format!("{}: {words}", parts(&numbers)))
        .collect();
    if more > 0 {
        sentences.push(format!("and {} more", counted(more, "part")));
    }
    sentences
}

/// Each part's number and what is said of it. Of a part that is not listed nothing is left, or it was dropped. Only one with a large
/// coordinate can have been dropped; the guard count tells how many were.
fn answers_by_part(frame: &Frame, misfits: &[Misfit], answer: &FrameAnswer) -> Vec<(usize, String)> {
    let mut said: Vec<(usize, String)> = Vec::new();
    if let FrameAnswer::Listed { parts, .. } = answer {
        said.extend(parts.clone().map(|part| (part.number, of_part(part.answer))));
    }
    let listed: BTreeSet<usize> = said.iter().map(|&(number, _)| number).collect();
    let unlisted = (0..frame.parts().len()).filter(|number| !listed.contains(number));
    let large: BTreeSet<usize> = misfits.iter().map(|misfit| misfit.part).collect();
    let dropped = usize::from(answer.guard_count());
    let can_be_dropped = large.difference(&listed).count();
    said.extend(unlisted.map(|number| {
        let words = match large.contains(&number) {
            true if dropped == can_be_dropped => {
                "dropped: an overlay is wanted, and a coordinate is too large for it".into()
            }
            true if dropped > 0 => {
                format!("nothing is left in the tile, or dropped; {} dropped in all", counted(dropped, "part"))
            }
            _ => "nothing is left in the tile".to_string(),
        };
        (number, words)
    }));
    said
}

fn of_part(answer: PartAnswer) -> String {
    match answer {
        PartAnswer::Unchanged => "unchanged".to_string(),
        PartAnswer::Cut(_) => "cut".to_string(),
        PartAnswer::Overlay(reason) => format!("an overlay is wanted: {reason}"),
    }
}

/// `part 3`, or `parts 0, 2 to 5 and 9`.
fn parts(numbers: &[usize]) -> String {
    let mut runs: Vec<(usize, usize)> = Vec::new();
    for &number in numbers {
        match runs.last_mut() {
            Some((_, last)) if *last + 1 == number => *last = number,
            _ => runs.push((number, number)),
        }
    }
    let more: usize = runs.iter().skip(MOST_NUMBERS).map(|(first, last)| last - first + 1).sum();
    let mut items: Vec<String> = Vec::new();
    for (first, last) in runs.into_iter().take(MOST_NUMBERS) {
        match last - first {
            0 => items.push(first.to_string()),
            1 => items.extend([first.to_string(), last.to_string()]),
            _ => items.push(format!("{first} to {last}")),
        }
    }
    if more > 0 {
        items.push(format!("{more} more"));
    }
    let what = if numbers.len() == 1 { "part" } else { "parts" };
    format!("{what} {}", listed(&items))
}

/// `west`, `west and east`, `west, south and east`.
fn listed(items: &[impl AsRef<str>]) -> String {
    let items: Vec<&str> = items.iter().map(AsRef::as_ref).collect();
    match items.split_last() {
        None => String::new(),
        Some((last, [])) => last.to_string(),
        Some((last, others)) => format!("{} and {last}", others.join(", ")),
    }
}

fn counted(count: usize, what: &str) -> String {
    format!("{count} {what}{}", if count == 1 { "" } else { "s" })
}

/// What the drawing doesn't show, and why.
pub fn of_drawing(frame: &Frame, misfits: &[Misfit], view: Option<(&View, Option<Bounds>)>) -> Vec<String> {
    let mut notes: Vec<String> = of_bounds(frame).into_iter().collect();
    notes.extend(misfits.iter().take(MOST_CORNERS).map(Misfit::to_string));
    if misfits.len() > MOST_CORNERS {
        notes.push(format!("{} more can't be drawn", counted(misfits.len() - MOST_CORNERS, "corner")));
    }
    let Some((view, area)) = view else {
        notes.push("there is nothing that can be drawn".to_string());
        return notes;
    };
    notes.extend(area.and_then(|area| of_area(view, area)));
    let widened = drawable(frame.bounds.widened(frame.buffer));
    notes.extend(
        widened.and_then(|bounds| going_on(view, bounds)).map(|on| format!("the tile with its buffer goes on {on}")),
    );
    notes.extend(view.stretched.map(|how| format!("not to scale: it is drawn {how} than it is")));
    notes
}

/// The first sentences on what is left out, each once, and how many more there are.
pub fn first_of(left_out: &[String]) -> Vec<String> {
    let mut notes: Vec<String> = Vec::new();
    for note in left_out {
        if !notes.contains(note) {
            notes.push(note.clone());
        }
    }
    let more = notes.len().saturating_sub(MOST_LEFT_OUT);
    notes.truncate(MOST_LEFT_OUT);
    if more > 0 {
        notes.push(format!("and {more} more that can't be shown"));
    }
    notes
}

/// Where the area lies beyond the picture, as a whole or with what goes on there.
fn of_area(view: &View, area: Bounds) -> Option<String> {
    match view.shown(area) {
        None => Some(format!("the area lies beyond the picture, to the {}", listed(&view.sides_beyond(area)))),
        Some(_) => going_on(view, area).map(|on| format!("the area goes on {on}")),
    }
}

/// Where the bounds go on beyond the picture, if they do.
fn going_on(view: &View, bounds: Bounds) -> Option<String> {
    let sides = view.beyond(bounds);
    match sides.len() {
        0 => None,
        4 => Some("beyond the picture on all sides".to_string()),
        _ => Some(format!("beyond the picture to the {}", listed(&sides))),
    }
}

fn of_bounds(frame: &Frame) -> Option<String> {
    let widened = frame.bounds.widened(frame.buffer);
    let with_buffer = format!("with its buffer of {} the tile", number::text(frame.buffer));
    match (drawable(frame.bounds), drawable(widened)) {
        (Some(Bounds { west, south, east, north }), Some(_)) if west == east || south == north => {
            Some(format!("the tile has no {}", no_extent(west == east, south == north)))
        }
        (Some(_), Some(_)) => None,
        (None, None) if frame.buffer == 0.0 => Some(format!("the tile can't be drawn: {}", why_not(frame.bounds))),
        (None, Some(_)) => Some(format!("without its buffer the tile can't be drawn: {}", why_not(frame.bounds))),
        (_, None) => Some(format!("{with_buffer} can't be drawn: {}", why_not(widened))),
    }
}

fn no_extent(has_no_width: bool, has_no_height: bool) -> &'static str {
    match (has_no_width, has_no_height) {
        (true, true) => "width and no height",
        (true, false) => "width",
        _ => "height",
    }
}

/// Why bounds can't be drawn.
fn why_not(bounds: Bounds) -> String {
    let Bounds { west, south, east, north } = bounds;
    let sides = [("west", west), ("south", south), ("east", east), ("north", north)];
    let said = |(side, bound): (&str, f64)| format!("{side} is {}", number::text(bound));
    if let Some(side) = sides.into_iter().find(|(_, bound)| bound.is_nan()) {
        return format!("{}, and nothing lies inside such bounds", said(side));
    }
    if west > east {
        return format!("{} and {}, and nothing lies between", said(sides[0]), said(sides[2]));
    }
    if south > north {
        return format!("{} and {}, and nothing lies between", said(sides[1]), said(sides[3]));
    }
    let furthest = sides.into_iter().max_by(|(_, a), (_, b)| a.abs().total_cmp(&b.abs()));
    furthest.map_or(String::new(), |side| format!("{}, too far", said(side)))
}
