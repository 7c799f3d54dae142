//! An SVG of a fixed width, with the colours of its classes in light and dark. All places are in pixels from the upper left.

use std::fmt::Write;

use crate::view::{Pixel, Place};

pub const WIDTH: f64 = 480.0;

const STYLE: &str = "\
text{font-family:system-ui,-apple-system,'Segoe UI',Helvetica,Arial,'DejaVu Sans',sans-serif;font-size:12px;fill:#1f2328}
.title{font-size:15px;font-weight:600}
.small{font-size:11px;fill:#59636e;paint-order:stroke;stroke:#fff;stroke-width:3px}
.part{paint-order:stroke;stroke:#fff;stroke-width:4px}
.ground{fill:#fff;stroke:#d1d9e0}
.rim{fill:none;stroke:#d1d9e0}
.tile{fill:#f0f2f5;stroke:#818b98;stroke-width:1}
.buffer{fill:none;stroke:#59636e;stroke-width:1.5;stroke-dasharray:2 3}
.input{fill:none;stroke:#0969da;stroke-width:1.5;stroke-dasharray:6 3}
.speck{fill:none;stroke:#0969da;stroke-width:1.5}
.cut{fill:#1a7f37;fill-opacity:.25;stroke:none}
.border{fill:none;stroke:#1a7f37;stroke-width:3.5;stroke-linejoin:round;stroke-linecap:round}
.edge{fill:none;stroke:#1a7f37;stroke-width:2.5;stroke-linecap:round;stroke-dasharray:0 6}
.sent{fill:#1a7f37}
.made{fill:#fff;stroke:#1a7f37;stroke-width:1.5}
.unchanged{fill:#8250df;fill-opacity:.25;stroke:#8250df;stroke-width:2.5}
.overlay{fill:url(#hatch);stroke:none}
.hatch{stroke:#bc4c00;stroke-width:1.5}
.repeated{fill:none;stroke:#bf3989;stroke-width:3}
.crossing,.along{fill:none;stroke:#bf3989;stroke-width:4}
.mark{font-weight:700;fill:#bf3989;paint-order:stroke;stroke:#fff;stroke-width:4px}
@media(prefers-color-scheme:dark){
text{fill:#e6edf3}
.small{fill:#9198a1;stroke:#0d1117}
.part{stroke:#0d1117}
.ground{fill:#0d1117;stroke:#3d444d}
.rim{stroke:#3d444d}
.tile{fill:#1c2128;stroke:#9198a1}
.buffer{stroke:#9198a1}
.input,.speck{stroke:#58a6ff}
.cut{fill:#3fb950}
.border,.edge{stroke:#3fb950}
.sent{fill:#3fb950}
.made{fill:#0d1117;stroke:#3fb950}
.unchanged{fill:#bc8cff;stroke:#bc8cff}
.hatch{stroke:#f0883e}
.repeated,.crossing,.along{stroke:#f778ba}
.mark{fill:#f778ba;stroke:#0d1117}
}
path.broken{fill:none}
";

const HATCH: &str = "<defs><pattern id=\"hatch\" width=\"7\" height=\"7\" patternUnits=\"userSpaceOnUse\" \
                     patternTransform=\"rotate(45)\"><path class=\"hatch\" d=\"M0 0V7\"/></pattern></defs>\n";

/// Where text lies beside the point that it is put at.
#[derive(Clone, Copy)]
pub enum Anchor {
    Start,
    Middle,
}

/// Elements one over the other.
#[derive(Default)]
pub struct Canvas {
    elements: String,
}

impl Canvas {
    /// Begins a group of elements of which only what lies in this rectangle shows.
    pub fn open_clip(&mut self, place: Place) {
        self.put("<clipPath id=\"rim\">");
        self.rectangle("", place);
        self.put("</clipPath>\n<g clip-path=\"url(#rim)\">\n");
    }

    pub fn close_clip(&mut self) {
        self.put("</g>\n");
    }

    /// The area between closed lines: what lies in an odd number of them. Answers whether there is any.
    pub fn area(&mut self, class: &str, rings: &[Vec<Pixel>]) -> bool {
        let path: String = rings.iter().filter(|ring| !ring.is_empty()).map(|ring| path(ring) + "Z").collect();
        if !path.is_empty() {
            self.put(&format!("<path class=\"{class}\" fill-rule=\"evenodd\" d=\"{path}\"/>\n"));
        }
        !path.is_empty()
    }

    /// Lines from each point to the next. Answers whether there is any.
    pub fn lines(&mut self, class: &str, lines: &[Vec<Pixel>]) -> bool {
        let path: String = lines.iter().map(|line| path(line)).collect();
        if !path.is_empty() {
            self.put(&format!("<path class=\"{class}\" d=\"{path}\"/>\n"));
        }
        !path.is_empty()
    }

    pub fn circle(&mut self, class: &str, (x, y): Pixel, radius: f64) {
        self.put(&format!("<circle class=\"{class}\" cx=\"{}\" cy=\"{}\" r=\"{radius}\"/>\n", rounded(x), rounded(y)));
    }

    pub fn rectangle(&mut self, class: &str, place: Place) {
        let [x, y, width, height] = [place.left, place.top, place.width, place.height].map(rounded);
        let class = if class.is_empty() { String::new() } else { format!(" class=\"{class}\"") };
        self.put(&format!("<rect{class} x=\"{x}\" y=\"{y}\" width=\"{width}\" height=\"{height}\"/>\n"));
    }

    /// Text beside a point of its base line.
    pub fn text(&mut self, class: &str, anchor: Anchor, (x, y): Pixel, words: &str) {
        let anchor = match anchor {
            Anchor::Start => "start",
            Anchor::Middle => "middle",
        };
        let (x, y, words) = (rounded(x), rounded(y), escaped(words));
        self.put(&format!("<text class=\"{class}\" text-anchor=\"{anchor}\" x=\"{x}\" y=\"{y}\">{words}</text>\n"));
    }

    /// The whole file.
    pub fn finish(self, title: &str, height: f64) -> String {
        let (title, height) = (escaped(title), height.ceil());
        let mut svg = Canvas::default();
        svg.put(&format!(
            "<svg xmlns=\"http://www.w3.org/2000/svg\" width=\"{WIDTH}\" height=\"{height}\" role=\"img\">\n"
        ));
        svg.put(&format!("<title>{title}</title>\n<style>\n{STYLE}</style>\n{HATCH}"));
        let (inner_width, inner_height) = (WIDTH - 1.0, height - 1.0);
        svg.put(&format!(
            "<rect class=\"ground\" x=\".5\" y=\".5\" width=\"{inner_width}\" height=\"{inner_height}\" rx=\"8\"/>\n"
        ));
        svg.put(&self.elements);
        svg.put("</svg>\n");
        svg.elements
    }

    fn put(&mut self, element: &str) {
        self.elements.push_str(element);
    }
}

fn path(line: &[Pixel]) -> String {
    let mut path = String::new();
    for (n, &(x, y)) in line.iter().enumerate() {
        let command = if n == 0 { "M" } else { "L" };
        write!(path, "{command}{} {}", rounded(x), rounded(y)).expect("a string takes every text");
    }
    path
}

/// Hundredths of a pixel are enough, and take fewer digits. The sum has no minus zero.
fn rounded(pixels: f64) -> f64 {
    (pixels * 100.0).round() / 100.0 + 0.0
}

/// Text as XML has it, which has no place for most control characters.
fn escaped(words: &str) -> String {
    let escape = |character: char| match character {
        '&' => "&amp;".to_string(),
        '<' => "&lt;".to_string(),
        '>' => "&gt;".to_string(),
        '\u{fffe}' | '\u{ffff}' => " ".to_string(),
        control if control.is_control() => " ".to_string(),
        other => other.to_string(),
    };
    words.chars().map(escape).collect()
}
