//! What the reason of an overlay tells, marked in the drawing: a repeated corner, two edges that cross, or the bound that the cut runs
//! along. Corners and edges of a cut exterior, which an answer doesn't bring, are found by cutting it here once more.

use ringcut::{Bounds, Edge, Issue, Reason};

use crate::area::Ring;
use crate::canvas::Canvas;
use crate::legend::Entry;
use crate::shared::{number, ring};
use crate::text::{moved_inside, width_of, Labels, MARK};
use crate::view::{bounds_of, cut_to, is_placeable, Pixel, Point, View};

/// Pixels around a repeated corner, and from a marked point to the words beside it.
pub const RADIUS: f64 = 7.0;
const BESIDE: f64 = 16.0;

/// The classes of what is marked, in the legend too.
pub const CIRCLED: &str = "repeated";
pub const CROSSING: &str = "crossing";
pub const ALONG: &str = "along";

/// What is marked: the reason for an overlay of a part.
pub struct Told<'a> {
    pub reason: Reason,
    pub exterior: &'a Ring,
    /// Which part it is, in words behind a corner's or an edge's name; empty where there is only one.
    pub of_part: String,
    /// The bounds that it was cut at, the buffer's.
    pub bounds: Bounds,
    pub has_buffer: bool,
}

/// The legend's entry for what was marked, if anything was, and what was not, since it lies beyond the picture.
pub struct Marked {
    pub entry: Option<Entry>,
    pub left_out: Vec<String>,
}

/// Marks what a reason tells.
pub fn draw(canvas: &mut Canvas, view: &View, labels: &mut Labels, told: &Told) -> Marked {
    let (ring, issue) = match told.reason {
        Reason::Bridge(edge) => return mark_bound(canvas, view, labels, told, edge),
        Reason::Input(issue) => (ring::closed(told.exterior), issue),
        Reason::Cut(issue) => (cut_to(told.bounds, &ring::closed(told.exterior)), issue),
    };
    let of_cut = matches!(told.reason, Reason::Cut(_));
    let of = format!("{}{}", if of_cut { " of the cut" } else { "" }, told.of_part);
    let mut left_out = Vec::new();
    let entry = match issue {
        Issue::Short => None,
        Issue::Repeated { corner } => {
            let is_marked = mark_corner(canvas, view, labels, &ring, corner);
            if !is_marked {
                left_out.push(format!("corner {corner}{of} lies beyond the picture, at {}", words_of(ring[corner])));
            }
            is_marked.then_some((CIRCLED, if of_cut { "repeated in the cut" } else { "repeated corner" }))
        }
        Issue::Crossing { lower, higher } => {
            for edge in [lower, higher] {
                if !mark_edge(canvas, view, labels, &ring, edge) {
                    let [from, to] = [ring[edge], ring[edge + 1]].map(words_of);
                    left_out.push(format!("edge {edge}{of} lies beyond the picture, from {from} to {to}"));
                }
            }
            (left_out.len() < 2).then_some((CROSSING, if of_cut { "cross in the cut" } else { "edges that cross" }))
        }
    };
    Marked { entry, left_out }
}

fn words_of(point: Point) -> String {
    let [x, y] = point.map(number::text);
    format!("({x},{y})")
}

fn mark_bound(canvas: &mut Canvas, view: &View, labels: &mut Labels, told: &Told, edge: Edge) -> Marked {
    let Bounds { west, south, east, north } = told.bounds;
    let (ends, bound) = match edge {
        Edge::Left => ([[west, south], [west, north]], west),
        Edge::Right => ([[east, south], [east, north]], east),
        Edge::Bottom => ([[west, south], [east, south]], south),
        Edge::Top => ([[west, north], [east, north]], north),
    };
    let (side, bound) = (edge.side(), number::text(bound));
    if !ends.into_iter().all(is_placeable) {
        return Marked { entry: None, left_out: vec![format!("the {side} bound, at {bound}, can't be drawn")] };
    }
    let stretches = view.stretches(&ends);
    let Some((&from, &to)) = stretches.first().and_then(|stretch| stretch.first().zip(stretch.last())) else {
        let left_out = format!("the {side} bound, with the buffer at {bound}, lies beyond the picture");
        return Marked { entry: None, left_out: vec![left_out] };
    };
    canvas.lines(ALONG, &stretches);
    let words =
        if told.has_buffer { format!("{side} bound with the buffer, {bound}") } else { format!("{side} bound") };
    let width = width_of(MARK, &words);
    let aside = width / 2.0 + BESIDE;
    // Beyond its upper or right end, where few shapes are, or beside its middle.
    let (x, y) = ((from.0 + to.0) / 2.0, (from.1 + to.1) / 2.0);
    let places = match edge {
        Edge::Left | Edge::Right => [(moved_inside(x, width), to.1 - 10.0), (x + aside, y), (x - aside, y)],
        Edge::Bottom | Edge::Top => [(to.0 + aside, y), (x, y - BESIDE), (x, y + BESIDE)],
    };
    labels.put_somewhere(canvas, MARK, &places, &words);
    Marked { entry: Some((ALONG, "along this bound")), left_out: Vec::new() }
}

/// The corner with its number, and the numbers of those before it that there is room for, so that it is seen from where they are
/// counted. Answers whether the corner is in the picture.
fn mark_corner(canvas: &mut Canvas, view: &View, labels: &mut Labels, ring: &[Point], number: usize) -> bool {
    let (Some(middle), Some(point)) = (middle(view, ring), corner(view, ring, number)) else { return false };
    canvas.circle(CIRCLED, point, RADIUS);
    labels.put_somewhere(canvas, MARK, &around(point, middle), &number.to_string());
    for before in 0..number {
        if let Some(point) = corner(view, ring, before) {
            labels.put_if_free(canvas, "small", around(point, middle)[0], &before.to_string());
        }
    }
    true
}

/// The edge with its number beyond the end that lies further out, where fewer lines are. A bare number there would be the corner's.
/// Answers whether some of the edge is in the picture.
fn mark_edge(canvas: &mut Canvas, view: &View, labels: &mut Labels, ring: &[Point], number: usize) -> bool {
    let stretches = view.stretches(&ring[number..number + 2]);
    let ends = stretches.first().and_then(|stretch| stretch.first().zip(stretch.last()));
    let (Some(middle), Some((&from, &to))) = (middle(view, ring), ends) else { return false };
    canvas.lines(CROSSING, &stretches);
    let (inner, outer) = if distance(middle, from) < distance(middle, to) { (from, to) } else { (to, from) };
    let places = [around(outer, inner), around(inner, outer)].concat();
    labels.put_somewhere(canvas, MARK, &places, &format!("edge {number}"));
    true
}

/// Where a corner stands in the drawing, if it does.
fn corner(view: &View, ring: &[Point], number: usize) -> Option<Pixel> {
    view.shows(ring[number]).then(|| view.pixel(ring[number]))
}

/// The middle of what is shown of a ring.
fn middle(view: &View, ring: &[Point]) -> Option<Pixel> {
    let Bounds { west, south, east, north } = view.shown(bounds_of(ring.iter().copied())?)?;
    Some(view.pixel([(west + east) / 2.0, (south + north) / 2.0]))
}

fn distance((x, y): Pixel, (other_x, other_y): Pixel) -> f64 {
    (other_x - x).hypot(other_y - y)
}

/// Places for words beside a point: in the direction that leads away from another, then in those beside it.
fn around((x, y): Pixel, away_from: Pixel) -> [Pixel; 5] {
    let ahead = if (x, y) == away_from { 0.0 } else { (y - away_from.1).atan2(x - away_from.0) };
    [0.0, 0.8, -0.8, 1.6, -1.6].map(|turn| (x + BESIDE * (ahead + turn).cos(), y + BESIDE * (ahead + turn).sin()))
}
