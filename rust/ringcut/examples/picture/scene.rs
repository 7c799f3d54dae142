//! A frame and its answer as a picture: title and words above, the drawing, what it leaves out, and the legend.

use ringcut::{Bounds, Frame, FrameAnswer, ListedPart, PartAnswer, Vertex};

use crate::area::{self, Misfit, Ring};
use crate::canvas::{Anchor, Canvas, WIDTH};
use crate::legend::{self, Entry};
use crate::marks::Told;
use crate::room::Shape;
use crate::shared::number;
use crate::text::{in_lines, title_lines, width_of, Labels};
use crate::view::{bounds_of, drawable, is_placeable, union, Pixel, Place, Point, View};
use crate::{marks, outline, room, words};

/// Characters that a line has room for: of words above and of notes below.
const LINE_LENGTH: usize = 70;
const NOTE_LENGTH: usize = 76;

/// Pixels from line to line: of the title, of words above and of notes below.
const TITLE_LINE: f64 = 20.0;
const LINE: f64 = 18.0;
const NOTE_LINE: f64 = 16.0;

/// The room for the drawing, and the least that is left beside it.
const WIDEST: f64 = 400.0;
const HIGHEST: f64 = 300.0;
const BESIDE: f64 = (WIDTH - WIDEST) / 2.0;

/// Pixels between words and drawing, and below it, where two numbers of the tile may stand.
const GAP: f64 = 26.0;
const BELOW: f64 = 32.0;

/// More parts than so many are labelled by their numbers alone.
const MANY: usize = 20;

/// A frame with what is drawn of it.
struct Scene<'a> {
    frame: &'a Frame<'a>,
    answer: &'a FrameAnswer<'a>,
    parts: Vec<Vec<Ring>>,
    misfits: Vec<Misfit>,
    /// The bounds that are cut at.
    widened: Bounds,
    canvas: Canvas,
    labels: Labels,
    legend: Vec<Entry>,
    /// What is not drawn, or not as it is, in sentences that stand below the drawing.
    left_out: Vec<String>,
    /// How many parts have no label for want of room.
    unlabelled: usize,
}

pub fn draw(title: &str, frame: &Frame, answer: &FrameAnswer) -> String {
    let parts = area::parts_of(frame);
    let scene = Scene {
        frame,
        answer,
        misfits: area::misfits_of(&parts),
        parts,
        widened: frame.bounds.widened(frame.buffer),
        canvas: Canvas::default(),
        labels: Labels::default(),
        legend: Vec::new(),
        left_out: Vec::new(),
        unlabelled: 0,
    };
    scene.draw(title)
}

impl Scene<'_> {
    fn draw(mut self, title: &str) -> String {
        let top = self.draw_words(title) + GAP;
        let view = self.view(top);
        let mut bottom = top;
        if let Some(view) = &view {
            self.draw_shapes(view);
            self.draw_labels(view);
            bottom = view.place.top + view.place.height + BELOW;
        }
        for line in self.notes(view.as_ref()).iter().flat_map(|note| in_lines(note, NOTE_LENGTH)) {
            self.canvas.text("small", Anchor::Middle, (WIDTH / 2.0, bottom), &line);
            bottom += NOTE_LINE;
        }
        let end = legend::draw(&mut self.canvas, bottom, &self.legend);
        self.canvas.finish(title, end + 4.0)
    }

    /// The title, the flags with the buffer, and the answer; answers where they end.
    fn draw_words(&mut self, title: &str) -> f64 {
        let mut base_line = 6.0;
        for line in title_lines(title) {
            base_line += TITLE_LINE;
            self.canvas.text("title", Anchor::Middle, (WIDTH / 2.0, base_line), &line);
        }
        let settings = words::of_settings(self.frame);
        let answer = words::of_answer(self.frame, &self.misfits, self.answer);
        for line in [settings].iter().chain(&answer).flat_map(|words| in_lines(words, LINE_LENGTH)) {
            base_line += LINE;
            self.canvas.text("answer", Anchor::Middle, (WIDTH / 2.0, base_line), &line);
        }
        base_line
    }

    /// What is to be known of the drawing.
    fn notes(&self, view: Option<&View>) -> Vec<String> {
        let mut notes = words::of_drawing(self.frame, &self.misfits, view.map(|view| (view, self.area())));
        notes.extend(words::first_of(&self.left_out));
        if self.parts.len() > MANY {
            notes.push("a number in an area, or beside a small one, is that of the part".to_string());
        }
        if self.unlabelled > 0 {
            notes.push(format!("parts without a label, for want of room: {}", self.unlabelled));
        }
        notes
    }

    /// The bounds of all corners that can be placed.
    fn area(&self) -> Option<Bounds> {
        bounds_of(self.parts.iter().flatten().flatten().copied())
    }

    /// What is shown and where, if there is anything that can be.
    fn view(&self, top: f64) -> Option<View> {
        let area = self.area();
        let (tile, widened) = (drawable(self.frame.bounds), drawable(self.widened));
        let is_point = |bounds: &Bounds| bounds.west == bounds.east && bounds.south == bounds.north;
        let shown = tile.filter(|tile| !is_point(tile)).or(widened).or(tile).or(area)?;
        let all = [tile, widened, area].into_iter().flatten().fold(shown, union);
        let numbers =
            [self.frame.bounds.south, self.frame.bounds.north].map(|bound| width_of("small", &number::text(bound)));
        let left = if tile.is_some() { BESIDE.max(numbers[0].max(numbers[1]) + 30.0) } else { BESIDE };
        let room = Place { left, top, width: WIDTH - BESIDE - left, height: HIGHEST };
        Some(View::new(shown, all, room))
    }

    fn draw_shapes(&mut self, view: &View) {
        let drawn = [self.area(), drawable(self.widened)];
        if drawn.into_iter().flatten().any(|bounds| !view.beyond(bounds).is_empty()) {
            self.canvas.rectangle("rim", view.rim());
        }
        self.canvas.open_clip(view.rim());
        if let Some(tile) = drawable(self.frame.bounds) {
            if self.canvas.area("tile", &[view.cut(&rectangle(tile))]) {
                self.legend.push(("tile", "tile"));
            }
        }
        if let Some(widened) = drawable(self.widened).filter(|_| self.frame.buffer != 0.0) {
            if area::draw_outlines(&mut self.canvas, view, "buffer", &[rectangle(widened)]) {
                self.legend.push(("buffer", "tile with its buffer"));
            }
        }
        for part in &self.parts {
            if area::draw_outlines(&mut self.canvas, view, "input", part) {
                self.legend.push(("input", "input outline"));
            }
            self.legend.extend(area::draw_speck(&mut self.canvas, view, part));
        }
        self.draw_answer(view);
        self.canvas.close_clip();
    }

    fn draw_answer(&mut self, view: &View) {
        match self.answer {
            FrameAnswer::Nothing { .. } | FrameAnswer::Dropped => {}
            FrameAnswer::Unchanged => (0..self.parts.len()).for_each(|number| self.draw_unchanged(view, number)),
            FrameAnswer::Listed { parts, .. } => parts.clone().for_each(|part| self.draw_part(view, part)),
        }
    }

    fn draw_unchanged(&mut self, view: &View, number: usize) {
        let (rings, entry) = (&self.parts[number], ("unchanged", "unchanged"));
        self.legend.extend(area::draw(&mut self.canvas, view, entry, rings));
        let is_whole = rings.iter().all(area::is_whole);
        if !is_whole && area::draw_outlines(&mut self.canvas, view, "unchanged broken", rings) {
            self.legend.push(entry);
        }
    }

    fn draw_part(&mut self, view: &View, ListedPart { number, answer }: ListedPart) {
        match answer {
            PartAnswer::Unchanged => self.draw_unchanged(view, number),
            PartAnswer::Cut(rings) => {
                let rings: Vec<Vec<Vertex>> = rings.map(|ring| ring.iter().collect()).collect();
                self.draw_cut(view, number, &rings);
            }
            PartAnswer::Overlay(_) => {
                let entry = ("overlay", "overlay wanted");
                self.legend.extend(area::draw(&mut self.canvas, view, entry, &self.parts[number]));
            }
        }
    }

    fn draw_cut(&mut self, view: &View, number: usize, rings: &[Vec<Vertex>]) {
        let areas: Vec<Ring> =
            rings.iter().map(|ring| ring.iter().map(|&corner| outline::point(corner)).collect()).collect();
        self.legend.extend(area::draw(&mut self.canvas, view, ("cut", "cut"), &areas));
        self.legend.extend(outline::draw(&mut self.canvas, view, self.widened, rings));
        if let Some(point) = areas.iter().flatten().find(|&&point| !is_placeable(point)) {
            let is_nan = point.iter().any(|number| number.is_nan());
            let why = if is_nan { "not a number" } else { "too large to be drawn" };
            self.left_out.push(format!("a corner of the cut of part {number} is {why}"));
        }
    }

    /// What reasons tell first, since that is what a picture is looked at for; then the tile's bounds, then the parts.
    fn draw_labels(&mut self, view: &View) {
        if let FrameAnswer::Listed { parts, .. } = self.answer {
            for ListedPart { number, answer } in parts.clone() {
                let PartAnswer::Overlay(reason) = answer else { continue };
                let told = Told {
                    reason,
                    exterior: &self.parts[number][0],
                    of_part: if self.parts.len() > 1 { format!(" of part {number}") } else { String::new() },
                    bounds: self.widened,
                    has_buffer: self.frame.buffer != 0.0,
                };
                let marked = marks::draw(&mut self.canvas, view, &mut self.labels, &told);
                self.legend.extend(marked.entry);
                self.left_out.extend(marked.left_out);
            }
        }
        self.label_tile(view);
        if self.parts.len() > 1 {
            self.label_parts(view);
        }
    }

    /// The four bounds as numbers beside the tile.
    fn label_tile(&mut self, view: &View) {
        let Some(tile) = drawable(self.frame.bounds).and_then(|tile| view.shown(tile)) else { return };
        let Bounds { west, south, east, north } = self.frame.bounds;
        let ((left, bottom), (right, top)) = view.corners(tile);
        let [west, south, east, north] = [west, south, east, north].map(number::text);
        // Where the tile is small, the numbers of two opposite bounds move apart.
        let apart = ((width_of("small", &west) + width_of("small", &east)) / 2.0 + 6.0 - (right - left)).max(0.0) / 2.0;
        let upright = (13.0 - (bottom - top)).max(0.0) / 2.0;
        for (x, words) in [(left - apart, west), (right + apart, east)] {
            self.labels.put(&mut self.canvas, "small", (x, bottom + upright + 11.0), &words);
        }
        for (y, words) in [(bottom + upright, south), (top - upright, north)] {
            let x = left - width_of("small", &words) / 2.0 - 6.0;
            self.labels.put(&mut self.canvas, "small", (x, y), &words);
        }
    }

    /// The parts' numbers, each in its part and in no other, if there is room for it.
    fn label_parts(&mut self, view: &View) {
        let shapes: Vec<Shape> = self.parts.iter().map(|part| area::shape(view, part)).collect();
        for number in 0..shapes.len() {
            let is_other = |&(other, _): &(usize, &Shape)| other != number;
            let others: Vec<&Shape> = shapes.iter().enumerate().filter(is_other).map(|(_, shape)| shape).collect();
            self.label_part(view, number, &shapes[number], &others);
        }
    }

    fn label_part(&mut self, view: &View, number: usize, shape: &Shape, others: &[&Shape]) {
        let points = self.parts[number].iter().flatten().copied();
        let Some(shown) = bounds_of(points).and_then(|bounds| view.shown(bounds)) else { return };
        let words = if self.parts.len() > MANY { number.to_string() } else { format!("part {number}") };
        let ((left, bottom), (right, top)) = view.corners(shown);
        let width = width_of("part", &words);
        let place = Place { left, top, width: right - left, height: bottom - top };
        let mut places = room::places_in(shape, others, place, width);
        // A part that has no room of its own may have some that is another's too.
        places.extend(room::places_in(shape, &[], place, width));
        if places.is_empty() {
            let (x, y) = ((left + right) / 2.0, (top + bottom) / 2.0);
            let aside = width / 2.0 + 8.0;
            let beside = [(x, top - 12.0), (x, bottom + 12.0), (right + aside, y), (left - aside, y)];
            let (apart, in_others): (Vec<Pixel>, _) =
                beside.into_iter().partition(|&place| room::is_apart(place, width, others));
            places = apart;
            // A bare number there would be taken for the other's.
            if self.parts.len() <= MANY {
                places.extend::<Vec<Pixel>>(in_others);
            }
        }
        if !places.iter().any(|&place| self.labels.put_if_free(&mut self.canvas, "part", place, &words)) {
            self.unlabelled += 1;
        }
    }
}

fn rectangle(bounds: Bounds) -> Vec<Point> {
    let Bounds { west, south, east, north } = bounds;
    vec![[west, south], [east, south], [east, north], [west, north], [west, south]]
}
