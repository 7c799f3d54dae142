//! Frames in words and as WKT.

use ringcut::{Bounds, Frame, FrameAnswer, Kind, Refusal, Ring};

use crate::shared::{lines, number, ring, words};
use crate::{wkt, Explained};

const IS_ANSWER: &str = "it is an answer: `explain answers` says it";

pub fn explain(line: &[u8]) -> Explained {
    let Some(bytes) = lines::bytes_of(line) else { return refused(Refusal::Digits, None) };
    match Frame::read(&bytes) {
        Ok(frame) => Explained { headline: headline(&frame), lines: frame_words(&frame), is_readable: true },
        Err(refusal) => refused(refusal, FrameAnswer::read_printed(&bytes).is_ok().then_some(IS_ANSWER)),
    }
}

/// Why it is refused, and what it is instead, if that is known.
fn refused(refusal: Refusal, instead: Option<&str>) -> Explained {
    let mut lines = vec![format!("  {refusal}")];
    lines.extend(instead.map(|words| format!("  {words}")));
    Explained { headline: "a frame that is refused".to_string(), lines, is_readable: true }
}

fn headline(frame: &Frame) -> String {
    match (frame.kind, frame.parts().len()) {
        (Kind::Polygon, _) => "a polygon".to_string(),
        (Kind::MultiPolygon, 0) => "a multipolygon of no parts".to_string(),
        (Kind::MultiPolygon, 1) => "a multipolygon of 1 part".to_string(),
        (Kind::MultiPolygon, count) => format!("a multipolygon of {count} parts"),
    }
}

fn frame_words(frame: &Frame) -> Vec<String> {
    let Bounds { west, south, east, north } = frame.bounds;
    let [west, south, east, north, buffer] = [west, south, east, north, frame.buffer].map(number::text);
    let mut lines = vec![
        format!("  {}", words::flags(frame.flags)),
        format!("  bounds: west {west}, south {south}, east {east}, north {north}"),
        format!("  buffer: {buffer}"),
    ];
    for (part, rings) in frame.parts().enumerate() {
        lines.extend(rings.enumerate().map(|(n, ring)| format!("  part {part}, {}", ring_words(n, ring))));
    }
    lines.extend(as_wkt(frame));
    lines
}

fn ring_words(n: usize, ring: Ring<[f64; 2]>) -> String {
    let what = if n == 0 { "the exterior" } else { "a hole" };
    let count = match ring.len() {
        0 => "no coordinates".to_string(),
        1 => "1 coordinate".to_string(),
        count => format!("{count} coordinates"),
    };
    let open = if closed(ring).len() > ring.len() { ", open: a call closes it" } else { "" };
    format!("ring {n}, {what}: {count}{open}")
}

fn as_wkt(frame: &Frame) -> Vec<String> {
    let parts: Vec<Vec<wkt::Ring>> = frame.parts().map(|rings| rings.map(closed).collect()).collect();
    match frame.kind {
        Kind::Polygon => wkt::polygon("", &parts[0]),
        Kind::MultiPolygon => wkt::multipolygon("", &parts),
    }
}

/// The ring as a call takes it.
fn closed(ring: Ring<[f64; 2]>) -> wkt::Ring {
    ring::closed(&ring.iter().collect::<wkt::Ring>())
}
