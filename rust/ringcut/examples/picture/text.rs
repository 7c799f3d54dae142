//! Lines of text that fit into the picture, and labels that leave each other room.

use crate::canvas::{Anchor, Canvas, WIDTH};
use crate::view::Pixel;

/// Pixels from the picture's edge to any text.
const MARGIN: f64 = 8.0;

/// Pixels that a character takes, as a rule, and one of a mark, which is bold; and those from the base line of a label to the next above
/// or below.
const CHARACTER: f64 = 6.4;
const BOLD_CHARACTER: f64 = 7.6;
const LABEL_HEIGHT: f64 = 13.0;

/// The most lines of a title, and the room in one as a multiple of the letters' height. A title that goes on ends with two dots.
const TITLE_LINES: usize = 3;
const TITLE_ROOM: f64 = 30.0;

/// Breaks words into lines of so many characters, between words where it can be.
pub fn in_lines(words: &str, length: usize) -> Vec<String> {
    broken(words, length as f64, |_| 1.0)
}

/// Breaks a title into lines, and ends it where there are many.
pub fn title_lines(title: &str) -> Vec<String> {
    let mut lines = broken(title, TITLE_ROOM, title_width);
    if lines.len() > TITLE_LINES {
        lines.truncate(TITLE_LINES);
        lines[TITLE_LINES - 1].push_str("..");
    }
    lines
}

/// The width of a character of a title as a multiple of its height, rather too large than too small, since fonts differ.
fn title_width(character: char) -> f64 {
    match character {
        'm' | 'w' | 'M' | 'W' | '@' | '%' | '&' => 1.1,
        'f' | 'i' | 'j' | 'l' | 'r' | 't' | 'I' | ' ' | '!' | '\'' | '(' | ')' | ',' | '-' | '.' | ':' | ';' => 0.45,
        'A'..='Z' | '\u{c0}'..='\u{24f}' => 0.85,
        // Put over the character before it.
        '\u{300}'..='\u{36f}' => 0.0,
        other if other.is_ascii() => 0.7,
        _ => 1.1,
    }
}

/// Breaks words into lines, between words where it can be.
fn broken(words: &str, room: f64, width: impl Fn(char) -> f64) -> Vec<String> {
    let mut lines = Vec::new();
    let (mut line, mut taken) = (String::new(), 0.0);
    for word in words.split_whitespace() {
        let whole: f64 = word.chars().map(&width).sum();
        if !line.is_empty() && taken + width(' ') + whole > room {
            lines.push(std::mem::take(&mut line));
            taken = 0.0;
        }
        if !line.is_empty() {
            line.push(' ');
            taken += width(' ');
        }
        for character in word.chars() {
            if taken + width(character) > room {
                lines.push(std::mem::take(&mut line));
                taken = 0.0;
            }
            line.push(character);
            taken += width(character);
        }
    }
    if !line.is_empty() {
        lines.push(line);
    }
    lines
}

/// The class of labels in bold.
pub const MARK: &str = "mark";

/// How many pixels a label of this class takes, nearly.
pub fn width_of(class: &str, words: &str) -> f64 {
    let character = if class == MARK { BOLD_CHARACTER } else { CHARACTER };
    character * words.chars().count() as f64
}

/// Where the middle of words of this width stands that is put there, moved so that they are in the picture.
pub fn moved_inside(x: f64, width: f64) -> f64 {
    let half = (width / 2.0).min(WIDTH / 2.0 - MARGIN);
    x.clamp(MARGIN + half, WIDTH - MARGIN - half)
}

/// The labels that stand in the picture.
#[derive(Default)]
pub struct Labels {
    taken: Vec<Spot>,
}

/// The room that a label takes: its middle, and how far it reaches to each side.
struct Spot {
    x: f64,
    y: f64,
    half: f64,
}

impl Spot {
    /// Where words of this width stand whose middle is there, moved so that they are in the picture.
    fn new((x, y): Pixel, width: f64) -> Spot {
        let half = (width / 2.0).min(WIDTH / 2.0 - MARGIN);
        Spot { x: moved_inside(x, width), y, half }
    }

    fn is_apart(&self, other: &Spot) -> bool {
        (self.x - other.x).abs() > self.half + other.half || (self.y - other.y).abs() >= LABEL_HEIGHT
    }
}

impl Labels {
    /// Puts words with their middle there.
    pub fn put(&mut self, canvas: &mut Canvas, class: &str, middle: Pixel, words: &str) {
        let spot = Spot::new(middle, width_of(class, words));
        canvas.text(class, Anchor::Middle, (spot.x, spot.y + 4.0), words);
        self.taken.push(spot);
    }

    /// Puts words with their middle there, unless others stand in the way or the picture ends; answers whether it did.
    pub fn put_if_free(&mut self, canvas: &mut Canvas, class: &str, middle: Pixel, words: &str) -> bool {
        let spot = Spot::new(middle, width_of(class, words));
        let is_free = spot.x == middle.0 && self.taken.iter().all(|taken| taken.is_apart(&spot));
        if is_free {
            self.put(canvas, class, middle, words);
        }
        is_free
    }

    /// Puts words at the first of some places that is free, and at the first of all if none is.
    pub fn put_somewhere(&mut self, canvas: &mut Canvas, class: &str, middles: &[Pixel], words: &str) {
        if !middles.iter().any(|&middle| self.put_if_free(canvas, class, middle, words)) {
            self.put(canvas, class, middles[0], words);
        }
    }
}
