//! The example `picture`: the repository's pictures are those that it draws, with which edges of cuts are borders; what it says and marks
//! of the repository's examples; that every frame, however odd, gets an SVG that is one; and what it does with wrong use.

mod examples;
mod folders;
mod hexadecimal;

use std::collections::BTreeSet;
use std::fs;
use std::path::Path;

use examples::{digits, example, run, Ran, ROOT};
use folders::new_folder;
use hexadecimal::{bytes_of, lines_of};
use ringcut::{
    is_along_tile, Bounds, Flags, Frame, FrameAnswer, FrameBuilder, Kind, PartAnswer, Refusal, Vertex, LONGEST_FRAME,
};

const TILE: [f64; 4] = [0.0, 0.0, 10.0, 10.0];
const SQUARE: &[f64] = &[2., 2., 8., 2., 8., 8., 2., 8.];
const NAN: f64 = f64::NAN;
const INF: f64 = f64::INFINITY;

fn read(name: &str) -> String {
    fs::read_to_string(format!("{ROOT}/examples/{name}")).unwrap()
}

fn names_in(folder: impl AsRef<Path>) -> BTreeSet<String> {
    let names = fs::read_dir(folder).unwrap().map(|entry| entry.unwrap().file_name().into_string().unwrap());
    names.collect()
}

/// Draws a line of these, from 1.
fn draw(line: usize, frames: &str) -> Ran {
    run(example("picture"), &[&line.to_string()], frames.as_bytes())
}

/// The picture of a line of the repository's examples, from 1.
fn picture(line: usize) -> String {
    let Ran { status, output, said } = draw(line, &read("frames.hex"));
    assert_eq!((status, said.as_str()), (0, ""), "line {line}");
    output
}

#[test]
fn the_repositorys_pictures_are_those_that_are_drawn() {
    let folder = new_folder("pictures");
    let list = format!("{ROOT}/examples/pictures.txt");
    let arguments = ["--list", &list, folder.to_str().unwrap()];
    let Ran { status, output, said } = run(example("picture"), &arguments, read("frames.hex").as_bytes());
    assert_eq!((status, output.as_str(), said.as_str()), (0, "", ""));
    let drawn = names_in(&folder);
    assert_eq!(names_in(format!("{ROOT}/examples/pictures")), drawn);
    for name in drawn {
        let is_drawn = read(&format!("pictures/{name}")) == fs::read_to_string(folder.join(&name)).unwrap();
        assert!(is_drawn, "examples/pictures/{name} is not what examples/README.md says how to draw");
    }
}

/// The rings of the only cut that a line of the examples, from 1, is answered with; of each the numbers of its edges that are borders.
fn borders(line: usize) -> Vec<Vec<usize>> {
    let [frame, answer] = ["frames.hex", "answers.hex"].map(|name| bytes_of(&lines_of(name)[line - 1]).unwrap());
    let frame = Frame::read(&frame).unwrap();
    let bounds = frame.bounds.widened(frame.buffer);
    let Ok(FrameAnswer::Listed { mut parts, .. }) = FrameAnswer::read(&answer) else { panic!("no part is listed") };
    let cut = parts.find_map(|part| if let PartAnswer::Cut(rings) = part.answer { Some(rings) } else { None });
    let of_ring = |ring: Vec<Vertex>| {
        let edges = ring.windows(2).enumerate();
        edges.filter(|(_, edge)| !is_along_tile(bounds, edge[0], edge[1])).map(|(number, _)| number).collect()
    };
    cut.unwrap().map(|ring| of_ring(ring.iter().collect())).collect()
}

#[test]
fn the_tiles_edge_is_no_border() {
    // A side that lies outside becomes one along the bound, in a hole too, and with a buffer.
    assert_eq!(borders(2), [[0, 2, 3]]);
    assert_eq!(borders(4), [[0, 2, 3], [0, 2, 3]]);
    assert_eq!(borders(7), [[0, 2, 3]]);
    // Inside as it is, but for its hole.
    assert_eq!(borders(6), [vec![0, 1, 2, 3], vec![0, 2, 3]]);
    // Along the east bound to the tile's corner, which Top made, and on along the north bound.
    assert_eq!(borders(8), [[0, 1, 2, 5, 6]]);
    // Mended: the corner that was sent twice is one corner of its border.
    assert_eq!(borders(45), [[0, 1, 3, 4]]);
    // Two teeth, joined along the bound.
    assert_eq!(borders(9), [[0, 2, 3, 4, 6, 7]]);
    // Down the west bound from a corner that Top made to one that Bottom made.
    assert_eq!(borders(40), [vec![4, 5, 6], vec![0, 1, 2], vec![1, 2, 3]]);
    // Far larger than the tile.
    assert_eq!(borders(46), [[2, 3]]);
}

/// The stretches of an outline that are drawn as borders and those along the tile's edge, in the order of the ring.
fn outline(svg: &str) -> Vec<String> {
    let classes = elements(svg).into_iter().filter(|element| element.name == "path").map(|path| path.class());
    // The last two are the legend's.
    let mut outline: Vec<String> = classes.filter(|class| class == "border" || class == "edge").collect();
    outline.truncate(outline.len() - 2);
    outline
}

#[test]
fn borders_are_drawn_otherwise_than_the_tiles_edge() {
    let classes = |line: usize| outline(&picture(line));
    assert_eq!(classes(2), ["border", "edge", "border"]);
    assert_eq!(classes(8), ["border", "edge", "border"]);
    assert_eq!(classes(9), ["border", "edge", "border", "edge", "border"]);
    assert_eq!(classes(6), ["border", "border", "edge", "border"]);
}

/// What stands in the picture beside the title, the numbers of the tile and the legend.
#[test]
fn the_answer_is_said_in_sentences() {
    let cases = [
        (1, "flags 0: none"),
        (1, "unchanged as a whole: it lies inside the tile"),
        (2, "flags 3: assume_simple, skip_boundary_fallback"),
        (2, "part 0: cut"),
        (3, "part 0: an overlay is wanted: an edge of the cut exterior runs along the east bound"),
        (14, "part 0: an overlay is wanted: an edge of the cut exterior runs along the west bound"),
        (15, "part 0: an overlay is wanted: an edge of the cut exterior runs along the south bound"),
        (16, "part 0: an overlay is wanted: an edge of the cut exterior runs along the north bound"),
        (13, "part 0: an overlay is wanted: corner 0 of the cut is repeated"),
        (17, "nothing of it is left in the tile"),
        (18, "dropped as a whole: corner 1 of part 0 is not finite"),
        (18, "corner 1 of part 0 is not finite: (30,NaN)"),
        (19, "corner 1 of part 0 is too large to be drawn: (1e150,2)"),
        (21, "part 0: unchanged"),
        (21, "part 3: nothing is left in the tile"),
        (23, "parts 0 and 1: dropped: an overlay is wanted, and a coordinate is too large for it"),
        (35, "part 0: an overlay is wanted: the exterior has fewer than 4 corners, the closing one counted"),
        (36, "part 0: an overlay is wanted: corner 3 is repeated"),
        (37, "part 0: an overlay is wanted: edges 0 and 4 cross"),
        (39, "part 0: an overlay is wanted: edges 0 and 3 of the cut cross"),
        (46, "the area goes on beyond the picture on all sides"),
    ];
    for (line, sentence) in cases {
        let picture = picture(line);
        assert!(words(&picture).contains(sentence), "{sentence}: {}", words(&picture));
        assert!(!picture.contains("reason"), "line {line}");
    }
}

/// The classes of what is marked in a picture, and the words beside.
fn marks(svg: &str) -> (String, String) {
    let is_mark = |element: &Element| ["repeated", "crossing", "along"].contains(&element.class().as_str());
    let marks: Vec<String> = elements(svg).into_iter().filter(is_mark).map(|mark| mark.class()).collect();
    let words = elements(svg).into_iter().filter(|element| element.class() == "mark").map(|words| words.text);
    // The last mark is the legend's.
    (marks[..marks.len().saturating_sub(1)].join(" "), words.collect::<Vec<_>>().join(", "))
}

fn marked(shapes: &str, words: &str) -> (String, String) {
    (shapes.to_string(), words.to_string())
}

#[test]
fn what_a_reason_tells_is_marked() {
    assert_eq!(marks(&picture(36)), marked("repeated", "3"));
    assert_eq!(marks(&picture(37)), marked("crossing crossing", "edge 0, edge 4"));
    // Of a cut, which the answer does not bring.
    assert_eq!(marks(&picture(13)), marked("repeated", "0"));
    assert_eq!(marks(&picture(39)), marked("crossing crossing", "edge 0, edge 3"));
    assert_eq!(marks(&picture(8)), marked("", ""));
    // The edge that closes an exterior that was sent open.
    let open = frame(Kind::Polygon, Flags::default(), TILE, 0., &[&[&[2., 2., 8., 2., 2., 8., 8., 8.]]]);
    assert_eq!(marks(&draw(1, &open).output), marked("crossing crossing", "edge 1, edge 3"));
}

/// The places of circles of a class, in pixels.
fn circles(svg: &str, class: &str) -> Vec<[f64; 2]> {
    let circles = elements(svg).into_iter().filter(|element| element.class() == class && element.name == "circle");
    circles.map(|circle| circle.place(["cx", "cy"])).collect()
}

#[test]
fn marks_stand_where_corners_and_edges_are() {
    let svg = picture(36);
    let input = path(&svg, "input");
    assert_eq!(circles(&svg, "repeated")[0], input[3]);
    assert_ne!(input[3], input[5]);
    let svg = picture(37);
    let input = path(&svg, "input");
    let crossing = paths(&svg, "crossing").into_iter().map(|path| path.concat());
    assert!(crossing.take(2).eq([input[0..2].to_vec(), input[4..6].to_vec()]));
    // In a cut the corner that touches the tile, an edge to the west bound, and the third that was sent, behind two that the bound made.
    let svg = picture(13);
    assert_eq!(circles(&svg, "repeated")[0], path(&svg, "input")[0]);
    let svg = picture(39);
    let (input, west) = (path(&svg, "input"), path(&svg, "tile")[0][0]);
    let crossing: Vec<_> = paths(&svg, "crossing").into_iter().map(|path| path.concat()).collect();
    assert_eq!((crossing[0][0], crossing[0][1][0]), (input[0], west));
    assert_eq!(crossing[1], input[2..4]);
}

/// The paths of a class, each as lines of x and y in pixels.
fn paths(svg: &str, class: &str) -> Vec<Vec<Vec<[f64; 2]>>> {
    let line = |commands: &str| -> Vec<[f64; 2]> {
        let points = commands.split(['L', 'Z']).filter_map(|point| point.split_once(' '));
        points.map(|(x, y)| [x.parse().unwrap(), y.parse().unwrap()]).collect()
    };
    let paths = elements(svg).into_iter().filter(|element| element.class() == class && element.name == "path");
    paths.map(|path| path.attribute("d").split('M').skip(1).map(line).collect()).collect()
}

/// The points of the first path of a class.
fn path(svg: &str, class: &str) -> Vec<[f64; 2]> {
    paths(svg, class)[0].concat()
}

#[test]
fn the_bound_that_a_cut_runs_along_is_marked() {
    // The axis that stays, and whether it is the tile's least there. Pixels are counted downwards.
    for (line, side, axis, is_least) in
        [(3, "east", 0, false), (14, "west", 0, true), (15, "south", 1, false), (16, "north", 1, true)]
    {
        let picture = picture(line);
        assert_eq!(marks(&picture), marked("along", &format!("{side} bound")));
        let tile = path(&picture, "tile").into_iter().map(|point| point[axis]);
        let bound = if is_least { tile.reduce(f64::min) } else { tile.reduce(f64::max) };
        assert!(path(&picture, "along").iter().all(|point| Some(point[axis]) == bound), "{side}");
    }
}

/// The least and the greatest number of an axis.
fn extent(points: &[[f64; 2]], axis: usize) -> [f64; 2] {
    let numbers = || points.iter().map(|point| point[axis]);
    [numbers().fold(INF, f64::min), numbers().fold(-INF, f64::max)]
}

#[test]
fn with_a_buffer_its_bound_is_marked() {
    let cases = [
        ("east", 11., square(5., 4., 11.5, 6.), 0, 1),
        ("west", -1., square(-5., 4., 5., 6.), 0, 0),
        ("south", -1., square(4., -5., 6., 5.), 1, 1),
        ("north", 11., square(4., 5., 6., 15.), 1, 0),
    ];
    for (side, number, ring, axis, end) in cases {
        let bridge = frame(Kind::Polygon, Flags::default(), TILE, 1., &[&[&ring]]);
        assert_says(&bridge, "flags 0: none; buffer 1");
        let svg = draw(1, &bridge).output;
        assert_eq!(marks(&svg), marked("along", &format!("{side} bound with the buffer, {number}")));
        let bound = extent(&path(&svg, "buffer"), axis)[end];
        assert_eq!(extent(&path(&svg, "along"), axis), [bound; 2]);
        assert_eq!(extent(&path(&svg, "along"), 1 - axis), extent(&path(&svg, "buffer"), 1 - axis));
        assert_ne!(extent(&path(&svg, "tile"), axis)[end], bound);
        // Bold letters of 12 pixels are 7.6 wide or less, as a rule.
        let label = elements(&svg).into_iter().find(|element| element.class() == "mark").unwrap();
        let half = 3.8 * label.text.len() as f64;
        assert!((half..480. - half).contains(&label.place(["x", "y"])[0]), "{}", label.text);
    }
}

#[test]
fn with_a_buffer_a_cut_runs_along_its_bounds() {
    let svg = draw(1, &polygon(TILE, 1., &square(5., 5., 30., 30.))).output;
    // The cut begins where it leaves the north bound.
    assert_eq!(outline(&svg), ["border", "edge"]);
    let buffer = path(&svg, "buffer");
    let ([_, east], [north, _]) = (extent(&buffer, 0), extent(&buffer, 1));
    let [x, y] = path(&svg, "input")[0];
    assert_eq!(path(&svg, "border"), [[x, north], [x, y], [east, y]]);
    assert_eq!(path(&svg, "edge"), [[east, y], [east, north], [x, north]]);
}

/// An element of an SVG, with the text that stands in it.
#[derive(Default)]
struct Element {
    name: String,
    attributes: Vec<(String, String)>,
    text: String,
}

impl Element {
    /// The value of an attribute, empty where there is none.
    fn attribute(&self, name: &str) -> &str {
        self.attributes.iter().find(|(other, _)| other == name).map_or("", |(_, value)| value)
    }

    fn class(&self) -> String {
        self.attribute("class").to_string()
    }

    /// Two attributes as a place in pixels.
    fn place(&self, [x, y]: [&str; 2]) -> [f64; 2] {
        [x, y].map(|name| self.attribute(name).parse().unwrap())
    }
}

fn unescaped(text: &str) -> String {
    assert!(!text.contains('>'), "{text}");
    assert!(text.chars().all(|character| character == '\n' || !character.is_control()), "{text:?}");
    let plain = text.replace("&lt;", "<").replace("&gt;", ">").replace("&amp;", "+");
    assert!(!plain.contains('&'), "{text}");
    text.replace("&lt;", "<").replace("&gt;", ">").replace("&amp;", "&")
}

/// The elements of a well-formed file, in the order in which they begin. What is not well-formed is told.
fn elements(svg: &str) -> Vec<Element> {
    let mut elements: Vec<Element> = Vec::new();
    let mut open: Vec<usize> = Vec::new();
    assert!(svg.starts_with("<svg ") && svg.ends_with("</svg>\n"));
    for piece in svg.split('<').skip(1) {
        let (tag, text) = piece.split_once('>').expect("a tag ends");
        if let Some(name) = tag.strip_prefix('/') {
            let begun = open.pop().expect("what ends has begun");
            assert_eq!(elements[begun].name, name);
        } else {
            assert!(!open.is_empty() || elements.is_empty(), "there is one root");
            elements.push(element(tag.trim_end_matches('/')));
            if !tag.ends_with('/') {
                open.push(elements.len() - 1);
            }
        }
        match open.last() {
            Some(&inner) => elements[inner].text.push_str(&unescaped(text)),
            None => assert_eq!(text.trim(), ""),
        }
    }
    assert!(open.is_empty(), "all that begins ends");
    elements
}

/// An element by what stands between its brackets.
fn element(tag: &str) -> Element {
    let (name, mut rest) = tag.split_once(' ').unwrap_or((tag, ""));
    let mut attributes = Vec::new();
    while !rest.trim().is_empty() {
        let (attribute, behind) = rest.trim_start().split_once("=\"").expect("an attribute has a value");
        let (value, behind) = behind.split_once('"').expect("a value ends");
        assert!(attributes.iter().all(|(other, _)| other != attribute), "{attribute} twice");
        attributes.push((attribute.to_string(), unescaped(value)));
        rest = behind;
    }
    Element { name: name.to_string(), attributes, text: String::new() }
}

/// All texts of a picture, each behind a blank, as a sentence may go on in the next.
fn words(svg: &str) -> String {
    elements(svg)
        .into_iter()
        .filter(|element| element.name == "text")
        .map(|element| format!(" {}", element.text))
        .collect()
}

/// That a picture is well-formed, all its numbers are finite and near its 480 pixels, and its texts fit.
fn assert_sound(svg: &str) {
    for Element { name, attributes, text } in elements(svg) {
        for (attribute, value) in attributes {
            let is_number = ["x", "y", "cx", "cy", "r", "width", "height", "d"].contains(&attribute.as_str());
            for number in value.split([' ', 'M', 'L', 'Z', 'V']).filter(|word| is_number && !word.is_empty()) {
                let number: f64 = number.parse().unwrap_or_else(|_| panic!("{attribute}=\"{value}\""));
                assert!((-200.0..3000.0).contains(&number), "{attribute}=\"{value}\"");
            }
        }
        assert!(name != "text" || text.chars().count() <= 80, "{text}");
    }
    assert_legend_fits(svg);
}

/// That what the legend shows, each beside its words, is in the drawing too.
fn assert_legend_fits(svg: &str) {
    let elements = elements(svg);
    let entries = elements.windows(2).filter(|pair| pair[1].class() == "legend");
    for shown in entries.map(|pair| pair[0].class()) {
        let is_shown = |element: &&Element| element.class().split(' ').next() == Some(&shown);
        assert!(elements.iter().filter(is_shown).count() > 1, "{shown}");
    }
}

/// The digits of a frame on these bounds; a part is its rings, a ring x, y numbers.
fn frame(kind: Kind, flags: Flags, [west, south, east, north]: [f64; 4], buffer: f64, parts: &[&[&[f64]]]) -> String {
    let mut room = [0; LONGEST_FRAME];
    let bounds = Bounds { west, south, east, north };
    let mut builder = FrameBuilder::new(kind, flags, bounds, buffer, &mut room).unwrap();
    for part in parts {
        builder.part(*part).unwrap();
    }
    digits(builder.finish().unwrap())
}

/// A frame of one polygon of one ring, with both flags.
fn polygon(bounds: [f64; 4], buffer: f64, ring: &[f64]) -> String {
    let flags = Flags { assume_simple: true, skip_boundary_fallback: true };
    frame(Kind::Polygon, flags, bounds, buffer, &[&[ring]])
}

/// That a frame has a sound picture, in which this is said.
fn assert_says(frame: &str, sentence: &str) {
    let Ran { status, output, said } = draw(1, frame);
    assert_eq!((status, said.as_str()), (0, ""));
    assert_sound(&output);
    assert!(words(&output).contains(sentence), "{sentence}: {}", words(&output));
}

#[test]
fn bounds_of_every_kind_are_drawn_or_said_to_be_none() {
    let said = |bounds, buffer, sentence: &str| assert_says(&polygon(bounds, buffer, SQUARE), sentence);
    said([0., NAN, 10., 10.], 0., "the tile can't be drawn: south is NaN, and nothing lies inside such bounds");
    said([10., 0., 0., 10.], 0., "the tile can't be drawn: west is 10 and east is 0, and nothing lies between");
    said([0., 10., 10., 0.], 0., "the tile can't be drawn: south is 10 and north is 0, and nothing lies between");
    said([-INF, -INF, INF, INF], 0., "the tile can't be drawn: north is inf, too far");
    said([5., 0., 5., 10.], 0., "the tile has no width");
    said([0., 5., 10., 5.], 0., "the tile has no height");
    said([5., 5., 5., 5.], 0., "the tile has no width and no height");
    said([10., 10., 0., 0.], 20., "without its buffer the tile can't be drawn: west is 10 and east is 0,");
    said(TILE, -7., "with its buffer of -7 the tile can't be drawn: west is 7 and east is 3,");
    said(TILE, NAN, "with its buffer of NaN the tile can't be drawn: west is NaN,");
    said(TILE, 1e300, "with its buffer of 1e300 the tile can't be drawn:");
    said(TILE, 1e6, "the tile with its buffer goes on beyond the picture on all sides");
    said([0., 0., 1e-3, 100.], 0., "not to scale: it is drawn wider than it is");
    said([0., 0., 1000., 1.], 0., "not to scale: it is drawn higher than it is");
    assert_says(&polygon([5., 0., 5., 10.], 0., &[]), "the tile has no width");
    assert_says(&polygon([7.; 4], 0., &[7., 7.]), "the tile has no width and no height");
    for bounds in
        [[0., 0., 5e-324, 5e-324], [100., 100., 100.00000000000001, 100.00000000000001], [-180., -90., 180., 90.]]
    {
        said(bounds, 0., "flags 3");
    }
}

#[test]
fn areas_of_every_kind_are_drawn_or_said_to_be_left_out() {
    let said = |ring: &[f64], sentence: &str| assert_says(&polygon(TILE, 0., ring), sentence);
    said(&[2., 2., 8., 2., NAN, 8.], "corner 2 of part 0 is not finite: (NaN,8)");
    said(&[2., 2., -INF, 2., 2., 8.], "dropped as a whole: corner 1 of part 0 is not finite");
    said(&[2., 2., 1e300, 2., 1e300, 8., 2., 8.], "corner 1 of part 0 is too large to be drawn: (1e300,2)");
    said(&[1e300; 100], "47 corners more can't be drawn");
    said(
        &[1e140, -1e140, 1e140, 1e140, -1e140, 1e140, -1e149, -1e149],
        "the area goes on beyond the picture on all sides",
    );
    said(&[1000., 1000., 1020., 1000., 1020., 1020.], "the area lies beyond the picture, to the north and east");
    said(&[-90., -90., 90., -90., 90., -80.], "the area lies beyond the picture, to the south");
    said(&[-30., 2., 5., 2., 5., 8.], "the area goes on beyond the picture to the west");
    said(&[2., 2., 2.0001, 2., 2.0001, 2.0001], "a very small area");
    said(&[], "nothing of it is left in the tile");
    // Only its first edge can be placed, and is far longer than the picture.
    said(&[5., 1e149, 5., -2e149, NAN, 0.], "the area goes on beyond the picture to the north and south");
    said(&[7., 7.], "the exterior has fewer than 4 corners");
    let huge = [-1.7e308, -1.7e308, 1.7e308, 1.7e308];
    assert_says(
        &polygon(huge, 0., &[-1e308, -1e308, 1e308, -1e308, 1e308, 1e308]),
        "there is nothing that can be drawn",
    );
    let star: Vec<f64> = (0..600).map(|n| 7. + 6. * f64::from(n % 4) * f64::from(n).sin()).collect();
    said(&star, "flags 3");
}

/// Whether a point lies in an odd number of closed lines.
fn is_inside(lines: &[Vec<[f64; 2]>], [x, y]: [f64; 2]) -> bool {
    let edges = lines.iter().flat_map(|line| line.windows(2));
    let is_to_the_right = |edge: &&[[f64; 2]]| {
        let [[from_x, from_y], [to_x, to_y]] = [edge[0], edge[1]];
        (from_y > y) != (to_y > y) && from_x + (y - from_y) / (to_y - from_y) * (to_x - from_x) > x
    };
    edges.filter(is_to_the_right).count() % 2 == 1
}

fn square(west: f64, south: f64, east: f64, north: f64) -> [f64; 8] {
    [west, south, east, south, east, north, west, north]
}

#[test]
fn the_name_of_a_part_stands_in_it_and_in_no_other() {
    let (ring, hole, island) = (square(1., 1., 9., 9.), square(2.5, 2.5, 7.5, 7.5), square(3., 3., 7., 7.));
    let angle = [1., 1., 9., 1., 9., 9., 8., 9., 8., 2., 1., 2.];
    let cases: [&[&[&[f64]]]; 3] = [
        &[&[&ring, &hole], &[&island]],
        // Around the other's middle, and over the other.
        &[&[&angle], &[&square(2., 3., 7.5, 8.)]],
        &[&[&ring], &[&square(4., 4., 20., 6.)]],
    ];
    for parts in cases {
        let svg = draw(1, &frame(Kind::MultiPolygon, Flags::default(), TILE, 0., parts)).output;
        let areas = paths(&svg, "input");
        for part in 0..2 {
            let words = format!("part {part}");
            let label = elements(&svg).into_iter().find(|element| element.text == words).unwrap();
            assert_eq!([0, 1].map(|area| is_inside(&areas[area], label.place(["x", "y"]))), [part == 0, part == 1]);
        }
    }
}

/// The words of the legend.
fn legend(svg: &str) -> Vec<String> {
    elements(svg).into_iter().filter(|element| element.class() == "legend").map(|element| element.text).collect()
}

#[test]
fn the_legend_has_what_is_drawn() {
    let legend_of = |bounds, buffer, ring: &[f64]| legend(&draw(1, &polygon(bounds, buffer, ring)).output);
    let around = [-20., 30., 60., 30., 60., 70., -20., 70.];
    let small = [9.84375, 47.98992, 9.86572, 48.00462];
    assert_eq!(legend_of(small, 0., &around), ["tile", "cut", "cut, not a border", "made by a bound"]);
    assert_eq!(legend_of(small, 1000., &around), ["tile", "unchanged"]);
    assert_eq!(legend_of(small, 0., &[]), ["tile"]);
    // A line that runs ten pixels beyond the drawing is behind its rim, which is eight wide.
    assert_eq!(legend_of(TILE, 0., &square(15.375, 2., 1000., 8.)), ["tile"]);
    // A large area of which only a corner is in the picture is no small one, and neither is a slender one.
    let [tiny, hidden, slender] = [2.0001, 500., 8.].map(|end| [2., 2., end, 2., end, 2.0001, 2., 2.0001]);
    assert_eq!(legend_of(TILE, 0., &tiny), ["tile", "input outline", "a very small area", "unchanged"]);
    assert_eq!(legend_of(TILE, 0., &slender), ["tile", "input outline", "unchanged"]);
    assert!(!legend_of(TILE, 0., &hidden.map(|number| number + 12.95)).contains(&"a very small area".to_string()));
}

#[test]
fn what_is_marked_beyond_the_picture_is_said() {
    let said = |frame: &str, sentence: &str| {
        assert_says(frame, sentence);
        assert_eq!(marks(&draw(1, frame).output), marked("", ""));
    };
    let repeated = [5., 5., 100., 5., 100., 100., 100., 100., 5., 100.];
    said(&polygon(TILE, 0., &repeated), "corner 2 lies beyond the picture, at (100,100)");
    let (kind, flags) = (Kind::MultiPolygon, Flags::default());
    let parts: [&[&[f64]]; 2] = [&[SQUARE], &[&repeated]];
    said(&frame(kind, flags, TILE, 0., &parts), "corner 2 of part 1 lies beyond the picture, at (100,100)");
    let crossing = [5., 5., 100., 5., 300., 300., 100., 300., 300., 5.5, 5., 6.];
    let crossing = frame(Kind::Polygon, flags, TILE, 0., &[&[&crossing]]);
    said(&crossing, "edge 1 lies beyond the picture, from (100,5) to (300,300)");
    said(&crossing, "edge 3 lies beyond the picture, from (100,300) to (300,5.5)");
    let bridge = frame(Kind::Polygon, flags, TILE, 1000., &[&[&[5., 5., 2000., 5., 2000., 8., 5., 8.]]]);
    said(&bridge, "the east bound, with the buffer at 1010, lies beyond the picture");
    let touching = polygon(TILE, 1000., &square(1010., 1010., 1020., 1020.));
    said(&touching, "corner 0 of the cut lies beyond the picture, at (1010,1010)");
    said(&frame(kind, flags, TILE, 0., &[parts[1]; 7]), "and 3 more that can't be shown");
    // The picture ends at a corner, whose distance from the tile is not exact, and the corner is in it.
    let at_end = polygon([-0.5, -0.5, 0.096, 0.096], 0., &[0., 0., 0.44, 0., 0.44, 0.44, 0.44, 0.44, 0., 0.44]);
    assert_eq!(marks(&draw(1, &at_end).output), marked("repeated", "2"));
}

#[test]
fn a_cut_that_holds_no_number_is_said_to() {
    let nan = polygon(TILE, 0., &[8., 2., 1e308, 1e308, -1.7e308, -1.7e308, 3., 8.]);
    assert_says(&nan, "a corner of the cut of part 0 is not a number");
    assert_eq!(legend(&draw(1, &nan).output)[..3], ["tile", "input outline", "border"]);
    let huge = polygon([-1e300, -1e300, 1e300, 1e300], 0., &[0., 0., 1e200, 0., 5., 5., 0., 5.]);
    let huge = draw(1, &huge).output;
    assert_eq!(legend(&huge), ["input outline", "unchanged"]);
    assert_eq!(paths(&huge, "unchanged broken"), paths(&huge, "input"));
}

#[test]
fn what_was_dropped_is_said_as_far_as_it_is_known() {
    let flags = Flags { assume_simple: true, skip_boundary_fallback: true };
    let said = |parts: &[&[&[f64]]], sentence: &str| {
        assert_says(&frame(Kind::MultiPolygon, flags, TILE, 0., parts), sentence);
    };
    let cut: &[&[f64]] = &[&[2., 2., 1e300, 2., 3., 5.]];
    let dropped: &[&[f64]] = &[&[5., 5., 5., 5., 1e300, 5., 6., 8.]];
    let apart: &[&[f64]] = &[&[1e300, 1e300, 1.1e300, 1e300, 1e300, 1.1e300]];
    said(&[cut, dropped], "part 0: cut part 1: dropped: an overlay is wanted, and a coordinate is too large for it");
    said(&[dropped, apart], "parts 0 and 1: nothing is left in the tile, or dropped; 1 part dropped in all");
    said(
        &[&[SQUARE, SQUARE, &[3., 3., NAN, 3., 4., 4.]]],
        "dropped as a whole: corner 1 of hole 2 of part 0 is not finite",
    );
}

#[test]
fn many_parts_are_said_and_labelled_as_far_as_there_is_room() {
    let flags = Flags::default();
    let multipolygon = |parts: &[&[&[f64]]]| frame(Kind::MultiPolygon, flags, TILE, 0., parts);
    assert_says(&multipolygon(&[]), "nothing of it is left in the tile");
    assert_says(&multipolygon(&[&[&[][..]][..]; 256]), "nothing of it is left in the tile");
    let squares: Vec<[f64; 6]> =
        (0..90).map(|n| (f64::from(n % 10), f64::from(n / 10))).map(|(x, y)| [x, y, x + 0.9, y, x, y + 0.9]).collect();
    let rings: Vec<[&[f64]; 1]> = squares.iter().map(|square| [&square[..]]).collect();
    let parts: Vec<&[&[f64]]> = rings.iter().map(|rings| &rings[..]).collect();
    assert_says(&multipolygon(&parts), "a number in an area, or beside a small one, is that of the part");
    let labels = |parts: &[&[&[f64]]]| -> Vec<String> {
        let svg = draw(1, &multipolygon(parts)).output;
        elements(&svg).into_iter().filter(|element| element.class() == "part").map(|label| label.text).collect()
    };
    assert_eq!(labels(&parts[..21]), (0..21).map(|number| number.to_string()).collect::<Vec<_>>());
    assert!(labels(&parts[..20]).iter().all(|label| label.starts_with("part ")));
    // Beside a small part in a large one a number would be taken for that of the large one.
    let specks = [0; 21].map(|_| [&[5., 5., 5.01, 5., 5., 5.01][..]]);
    let around = [&[SQUARE][..]].into_iter().chain(specks.iter().map(|speck| &speck[..])).collect::<Vec<_>>();
    assert_eq!(labels(&around), ["0"]);
    assert_eq!(labels(&around[..2]), ["part 0", "part 1"]);
    // One number has room in it, and four beside it.
    assert_says(&multipolygon(&[parts[0]; 40]), "parts without a label, for want of room: 35");
    let holes: Vec<&[f64]> = [SQUARE].into_iter().chain(squares.iter().map(|square| &square[..]).take(63)).collect();
    assert_says(&multipolygon(&[&holes, &[&[8., 8., 12., 8., 12., 12.]]]), "part 0: ");
}

#[test]
fn every_example_has_a_sound_picture_or_is_refused() {
    let frames = read("frames.hex");
    let answers = lines_of("answers.hex");
    assert_eq!(answers.len(), frames.lines().count());
    for (line, answer) in (1..).zip(&answers) {
        let Ran { status, output, said } = draw(line, &frames);
        match FrameAnswer::read_printed(&bytes_of(answer).unwrap()).unwrap() {
            Ok(_) => {
                assert_eq!((status, said.as_str()), (0, ""));
                assert_sound(&output);
            }
            Err(refusal) => {
                assert_eq!((status, output.as_str(), said), (1, "", format!("picture: line {line}: {refusal}\n")));
            }
        }
    }
}

#[test]
fn a_title_is_written_as_it_is_and_broken_where_it_is_long() {
    let with_title =
        |title: &str| run(example("picture"), &["--title", title], polygon(TILE, 0., SQUARE).as_bytes()).output;
    let titles = |title: &str| {
        let svg = with_title(title);
        assert_sound(&svg);
        let titles: Vec<String> = elements(&svg)
            .into_iter()
            .filter(|element| element.class() == "title")
            .map(|element| element.text)
            .collect();
        titles
    };
    assert_eq!(titles("A <b> & \"c\" > d"), ["A <b> & \"c\" > d"]);
    assert_eq!(titles("a\u{1}b\nc"), ["a b c"]);
    let long = "word ".repeat(30);
    assert!(titles(&long).len() > 1 && titles(&long).iter().all(|line| line.len() <= 52));
    // A line has 464 pixels, and a letter 15 upwards: of the widest letters, and of characters as wide as high, it holds fewer.
    let lengths = |title: &str| titles(title).iter().map(|line| line.chars().count()).collect::<Vec<_>>();
    assert_eq!(lengths(&"x".repeat(120)), [42, 42, 36]);
    assert_eq!(lengths(&"W".repeat(60)), [27, 27, 6]);
    assert_eq!(lengths(&"域".repeat(30)), [27, 3]);
    let end = &titles(&"x ".repeat(500))[2..];
    assert!(end.len() == 1 && end[0].ends_with(" x.."), "{end:?}");
    assert!(titles("").is_empty());
    assert!(draw(1, &polygon(TILE, 0., SQUARE)).output.contains("<title>The frame of line 1</title>"));
}

#[test]
fn wrong_use_is_told() {
    let frames = read("frames.hex");
    let told = |arguments: &[&str], sentence: &str| {
        let Ran { status, output, said } = run(example("picture"), arguments, frames.as_bytes());
        assert_eq!((status, output.as_str()), (2, ""), "{arguments:?}");
        assert!(said.starts_with(sentence), "{said}");
    };
    for arguments in
        [&["x"][..], &["--title"], &["1", "2"], &["--help"], &["-1"], &["--list", "a"], &["--title", "a", "b"]]
    {
        told(arguments, "usage: picture [--title TITLE] [LINE] <FRAMES >PICTURE.svg\n");
    }
    told(&["0"], "picture: standard input has no line 0\n");
    told(&["1000"], "picture: standard input has no line 1000\n");
    let folder = new_folder("wrong use");
    let (list, folder) = (folder.join("list"), folder.to_str().unwrap());
    told(&["--list", list.to_str().unwrap(), folder], &format!("picture: {}: ", list.display()));
    fs::write(&list, "1 a.svg\n").unwrap();
    told(&["--list", list.to_str().unwrap(), folder], &format!("picture: {}: a row has ", list.display()));
    fs::write(&list, "1 none/a.svg A title\n").unwrap();
    told(&["--list", list.to_str().unwrap(), folder], &format!("picture: {folder}/none/a.svg: "));
    let Ran { status, said, .. } = run(example("picture"), &[], b"0g\r\n");
    assert_eq!((status, said), (1, format!("picture: line 1: {}\n", Refusal::Digits)));
    let crlf = polygon(TILE, 0., SQUARE) + "\r\n";
    assert_eq!(draw(1, &crlf).output, draw(1, crlf.trim_end()).output);
}
