//! The legend below a drawing.

use crate::canvas::{Anchor, Canvas, WIDTH};
use crate::view::Place;
use crate::{area, marks, outline};

/// The class of what an entry shows, and what it says.
pub type Entry = (&'static str, &'static str);

/// Entries in a row, and the pixels of a row.
const COLUMNS: usize = 3;
const ROW: f64 = 22.0;

const LEFT: f64 = 24.0;

/// Draws each entry once, from `top` down, and answers where the next row would be.
pub fn draw(canvas: &mut Canvas, top: f64, entries: &[Entry]) -> f64 {
    let mut once: Vec<Entry> = Vec::new();
    for &entry in entries {
        if !once.contains(&entry) {
            once.push(entry);
        }
    }
    for (n, (class, words)) in once.iter().enumerate() {
        let x = LEFT + (n % COLUMNS) as f64 * (WIDTH - LEFT) / COLUMNS as f64;
        let y = top + (n / COLUMNS) as f64 * ROW;
        match *class {
            marks::CIRCLED => canvas.circle(class, (x + 10.0, y + 6.0), marks::RADIUS),
            area::CIRCLED => canvas.circle(class, (x + 10.0, y + 6.0), area::RADIUS),
            outline::SENT | outline::MADE => canvas.circle(class, (x + 10.0, y + 6.0), outline::RADIUS),
            outline::BORDER | outline::EDGE | marks::CROSSING | marks::ALONG => {
                canvas.lines(class, &[vec![(x, y + 6.0), (x + 20.0, y + 6.0)]]);
            }
            _ => canvas.rectangle(class, Place { left: x, top: y, width: 20.0, height: 12.0 }),
        }
        canvas.text("legend", Anchor::Start, (x + 28.0, y + 10.0), words);
    }
    top + once.len().div_ceil(COLUMNS) as f64 * ROW
}
