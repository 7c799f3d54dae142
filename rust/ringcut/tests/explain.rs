//! The example `explain`: what it prints of the repository's examples, of every answer, reason and refusal, and of odd numbers; that its
//! WKT reads back; that it says what scripts/words says; and what it does with input and arguments that it is not made for.

mod examples;
mod hexadecimal;

use std::fs;
use std::process::{Command, Stdio};

use examples::{digits, example, run, Ran, ROOT};
use hexadecimal::{bytes_of, lines_of};
use ringcut::{AnswerError, Bounds, Flags, Frame, FrameBuilder, Kind, Refusal, LONGEST_FRAME};

const BOUNDS: Bounds = Bounds { west: 0.0, south: 0.0, east: 10.0, north: 10.0 };

fn explain(what: &str, input: &[u8]) -> Ran {
    run(example("explain"), &[what], input)
}

/// The blocks that lines are explained by, each without its headline's number.
fn blocks(what: &str, lines: &[String]) -> Vec<String> {
    let Ran { status, output, said } = explain(what, (lines.join("\n") + "\n").as_bytes());
    assert_eq!((status, said.as_str()), (0, ""));
    let blocks: Vec<&str> = output.strip_suffix('\n').unwrap().split("\n\n").collect();
    assert_eq!(blocks.len(), lines.len());
    let without_number =
        |(n, block): (usize, &&str)| block.strip_prefix(&format!("line {}: ", n + 1)).map(String::from);
    blocks.iter().enumerate().map(without_number).collect::<Option<_>>().unwrap()
}

/// The block of a line of the repository's examples, from 1.
fn block(what: &str, line: usize) -> String {
    blocks(what, &lines_of(&format!("{what}.hex"))[line - 1..line]).remove(0)
}

#[test]
fn the_head_shows_what_is_printed() {
    let head = include_str!("../examples/explain/main.rs").replace("//! ", "");
    let shown: Vec<&str> = head.split("```text\n").skip(1).map(|rest| rest.split_once("\n```").unwrap().0).collect();
    let printed = ["frames", "answers"].map(|what| format!("line 2: {}", block(what, 2)));
    assert_eq!(shown, printed);
}

#[test]
fn frames_are_said_and_written_as_wkt() {
    let head = |flags| format!("  flags {flags}\n  bounds: west 0, south 0, east 10, north 10\n  buffer: 0\n");
    let polygon = |rest| format!("a polygon\n{}  part 0, ring 0, the exterior: {rest}", head("0: none"));
    let open = "4 coordinates, open: a call closes it\n  part 0, ring 1, a hole: 5 coordinates\n  as WKT:\n\
                POLYGON ((2 2, 8 2, 8 8, 2 8, 2 2), (6 6, 12 6, 12 7, 6 7, 6 6))";
    assert_eq!(block("frames", 6), polygon(open));
    let short = "3 coordinates\n  as WKT (most tools refuse it: a ring has fewer than 4 coordinates):\n\
                 POLYGON ((2 2, 1e150 2, 2 2))";
    assert_eq!(block("frames", 19), polygon(short));
    assert_eq!(block("frames", 18), polygon("4 coordinates\n  no WKT, as a coordinate is not finite"));
    let empty = format!("a multipolygon of no parts\n{}  as WKT:\nMULTIPOLYGON EMPTY", head("0: none"));
    assert_eq!(block("frames", 25), empty);
    assert!(block("frames", 21)
        .starts_with("a multipolygon of 4 parts\n  flags 3: assume_simple, skip_boundary_fallback\n"));
    assert!(block("frames", 12).contains("  flags 1: assume_simple\n"));
    assert!(block("frames", 7).contains("  buffer: 2\n"));
}

/// The block of a frame with these parts.
fn frame_block(kind: Kind, parts: &[&[&[f64]]]) -> String {
    let mut room = [0; LONGEST_FRAME];
    let mut builder = FrameBuilder::new(kind, Flags::default(), BOUNDS, 0.0, &mut room).unwrap();
    for part in parts {
        builder.part(*part).unwrap();
    }
    blocks("frames", &[digits(builder.finish().unwrap())]).remove(0)
}

#[test]
fn rings_without_coordinates_are_left_out_of_wkt() {
    let triangle: &[f64] = &[1., 1., 2., 1., 2., 2.];
    let wkt = |kind, parts: &[&[&[f64]]]| frame_block(kind, parts).lines().last().unwrap().to_string();
    assert_eq!(wkt(Kind::Polygon, &[&[&[]]]), "POLYGON EMPTY");
    assert_eq!(wkt(Kind::Polygon, &[&[&[], triangle]]), "POLYGON EMPTY");
    assert_eq!(
        wkt(Kind::Polygon, &[&[triangle, &[], triangle]]),
        "POLYGON ((1 1, 2 1, 2 2, 1 1), (1 1, 2 1, 2 2, 1 1))"
    );
    assert_eq!(wkt(Kind::MultiPolygon, &[&[&[]], &[triangle]]), "MULTIPOLYGON (EMPTY, ((1 1, 2 1, 2 2, 1 1)))");
    assert_eq!(wkt(Kind::MultiPolygon, &[&[triangle]]), "MULTIPOLYGON (((1 1, 2 1, 2 2, 1 1)))");
    let said = frame_block(Kind::MultiPolygon, &[&[triangle, &[], &[1., 1.]]]);
    assert!(said.starts_with("a multipolygon of 1 part\n"));
    assert!(
        said.contains("\n  part 0, ring 1, a hole: no coordinates\n  part 0, ring 2, a hole: 1 coordinate\n"),
        "{said}"
    );
}

/// The coordinates in each innermost pair of brackets.
fn rings_of(wkt: &str) -> Vec<Vec<[f64; 2]>> {
    let rings = wkt.split('(').filter_map(|text| text.split_once(')')).map(|(ring, _)| ring);
    let coordinate = |text: &str| text.split_once(' ').map(|(x, y)| [x.parse().unwrap(), y.parse().unwrap()]).unwrap();
    rings.map(|ring| ring.split(", ").map(coordinate).collect()).collect()
}

/// The WKT in a block, if it has some.
fn wkt_of(block: &str) -> impl Iterator<Item = &str> {
    block.lines().filter(|line| line.starts_with("POLYGON ") || line.starts_with("MULTIPOLYGON "))
}

#[test]
fn the_wkt_reads_back_as_the_same_doubles() {
    const NUMBERS: [f64; 14] = [
        1e300,
        -1e300,
        5e-324,
        f64::MIN_POSITIVE,
        f64::MAX,
        0.1,
        -0.0,
        1e16,
        9_999_999_999_999_998.0,
        1e-5,
        9.999e-6,
        1. / 3.,
        -179.999_999_999_999_97,
        123_456_789.123_456_79,
    ];
    let block = frame_block(Kind::Polygon, &[&[&NUMBERS]]);
    let wkt = wkt_of(&block).next().unwrap();
    let read = rings_of(wkt).concat().concat();
    let bits = |numbers: &[f64]| numbers.iter().map(|number| number.to_bits()).collect::<Vec<_>>();
    assert_eq!(bits(&read), bits(&[&NUMBERS[..], &NUMBERS[..2]].concat()));
    assert!(wkt
        .starts_with("POLYGON ((1e300 -1e300, 5e-324 2.2250738585072014e-308, 1.7976931348623157e308 0.1, -0 1e16, "));
}

#[test]
fn the_examples_wkt_has_their_coordinates() {
    let frames = lines_of("frames.hex");
    let mut compared = 0;
    for (line, block) in frames.iter().zip(blocks("frames", &frames)) {
        let Some(wkt) = wkt_of(&block).next() else { continue };
        let bytes = bytes_of(line).unwrap();
        let rings = Frame::read(&bytes).unwrap().parts().flatten().map(|ring| {
            let ring: Vec<[f64; 2]> = ring.iter().collect();
            if ring.first() == ring.last() {
                ring
            } else {
                [&ring[..], &ring[..1]].concat()
            }
        });
        assert_eq!(rings_of(wkt), rings.collect::<Vec<_>>(), "{block}");
        compared += 1;
    }
    // Of 47 lines nine are refused, and two have a NaN.
    assert_eq!(compared, 47 - 9 - 2);
}

#[test]
fn answers_are_said() {
    let origins = "  a corner with a number is one of the ring that was sent, counted from 0; one with a bound was made there by the cut\n\
                   \x20 Left, Right, Bottom and Top are the west, east, south and north bound\n";
    let parts = format!(
        "3 parts are listed\n  part 0 is unchanged: it is to be drawn as it was sent\n  part 1 is cut\n    \
         exterior: (6,6) corner 0, (10,5) Right, (10,9) Right, (7,9) corner 3, (6,6) corner 0\n  \
         part 2: an overlay is wanted, reason 9: corner 0 of the cut is repeated\n    \
         the corners of the cut exterior are numbered from 0\n{origins}  \
         guard count 1: 1 part was dropped: it wants an overlay and has a coordinate of magnitude 1e150 or more\n  \
         part 1 as WKT:\nPOLYGON ((6 6, 10 5, 10 9, 7 9, 6 6))"
    );
    assert_eq!(block("answers", 22), parts);
    let unchanged = "it lies inside the tile, widened by its buffer, as a whole: it is to be drawn as it was sent";
    assert_eq!(block("answers", 1), format!("unchanged\n  {unchanged}"));
    assert_eq!(block("answers", 17), "nothing\n  nothing of it is left in the tile");
    let two = "2 parts were dropped: each wants an overlay and has a coordinate of magnitude 1e150 or more";
    assert_eq!(block("answers", 23), format!("nothing\n  nothing of it is left in the tile\n  guard count 2: {two}"));
    let dropped = "it was dropped as a whole: a coordinate is not finite, \
                   or it is a polygon that wants an overlay and has a coordinate of magnitude 1e150 or more";
    assert_eq!(block("answers", 18), format!("dropped\n  {dropped}\n  guard count 1: the whole counts as one"));
}

/// What scripts/words says of the example answers, without what things mean, and that apart.
fn in_words() -> Vec<(String, String)> {
    let answers = fs::read(format!("{ROOT}/examples/answers.hex")).unwrap();
    let Ran { status, output, .. } = run("sh", &[&format!("{ROOT}/scripts/words"), "answers"], &answers);
    assert_eq!(status, 0);
    let split =
        |line: &str| line.split_once(" -- ").map_or((line.to_string(), String::new()), |(a, b)| (a.into(), b.into()));
    output.lines().map(split).collect()
}

/// What a line of a block begins with where the script says this piece of an answer.
fn beginning_of(piece: &str) -> String {
    if let Some((_, exterior)) = piece.split_once(" cut (") {
        return format!("exterior: ({exterior}");
    }
    if let Some(hole) = piece.strip_prefix("hole ") {
        return format!("hole: {hole}");
    }
    let said = [(" overlay, ", ": an overlay is wanted, "), (" unchanged", " is unchanged"), ("refused, ", "refusal ")];
    said.into_iter().fold(piece.to_string(), |piece, (script, here)| piece.replace(script, here))
}

/// Cuts with their origins, sentences of reasons with how corners and edges are numbered, and those of refusals: the examples have all.
#[test]
fn the_words_are_those_of_the_script() {
    let (blocks, in_words) = (blocks("answers", &lines_of("answers.hex")), in_words());
    assert_eq!(blocks.len(), in_words.len());
    for (block, (words, meaning)) in blocks.into_iter().zip(in_words) {
        assert!(!words.is_empty(), "the script says nothing of {block}");
        for beginning in words.split("; ").map(beginning_of) {
            assert!(
                block.lines().any(|line| line.trim_start().starts_with(&beginning)),
                "{beginning} is not in {block}"
            );
        }
        for piece in meaning.split("; reason ") {
            // In front of a meaning may stand what it is of.
            let sentence =
                piece.strip_prefix("cut: ").or(piece.split_once(": ").map(|(_, rest)| rest)).unwrap_or(piece);
            assert!(block.contains(sentence), "{sentence} is not in {block}");
        }
    }
}

#[test]
fn every_reason_and_every_refusal_is_said() {
    let reasons = (1..=10_u8).map(|reason| {
        let positions = match reason {
            7 | 9 => [3, 0],
            8 | 10 => [300, 301],
            _ => [0, 0_u16],
        };
        let bytes = [&[3, 0, 0, 1, 0, 255, 0, 5, reason][..], &positions.map(u16::to_le_bytes).concat()].concat();
        digits(&bytes)
    });
    let lines: Vec<String> = reasons.chain((10..=18).map(|number| digits(&[number, 0, 0, 0, 0]))).collect();
    let said: Vec<String> =
        blocks("answers", &lines).iter().map(|block| block.lines().nth(1).unwrap().to_string()).collect();
    let along = |side| format!("an edge of the cut exterior runs along the {side} bound");
    let sentences = [
        "the exterior has fewer than 4 corners, the closing one counted".to_string(),
        "the cut exterior has fewer than 4 corners, the closing one counted".to_string(),
        along("west"),
        along("east"),
        along("south"),
        along("north"),
        "corner 3 is repeated".to_string(),
        "edges 300 and 301 cross".to_string(),
        "corner 3 of the cut is repeated".to_string(),
        "edges 300 and 301 of the cut cross".to_string(),
    ];
    for (n, sentence) in sentences.iter().enumerate() {
        assert_eq!(said[n], format!("  part 255: an overlay is wanted, reason {}: {sentence}", n + 1));
    }
    for (number, said) in (10..=18).zip(&said[10..]) {
        assert_eq!(*said, format!("  {}", Refusal::from_number(number).unwrap()));
    }
}

#[test]
fn what_is_no_answer_is_said_to_be_none() {
    let digits = Refusal::Digits.to_string();
    let cases = [
        ("", AnswerError::Truncated.to_string()),
        ("0", digits.clone()),
        ("0g", digits.clone()),
        (" 0200000000", digits),
        ("0400000000", AnswerError::Number.to_string()),
        ("0b00000100", AnswerError::ListedCount.to_string()),
        ("020000000000", AnswerError::Trailing.to_string()),
        ("03000001000000050b00000000", AnswerError::Reason.to_string()),
    ];
    for (line, why) in cases {
        let Ran { status, output, said } = explain("answers", format!("{line}\n0200000000\n").as_bytes());
        assert_eq!((status, said.as_str()), (1, ""), "{line}");
        assert!(output.starts_with(&format!("line 1: not an answer\n  {why}\n\nline 2: unchanged\n")), "{output}");
    }
}

#[test]
fn what_is_no_frame_is_said_to_be_refused() {
    let Ran { status, output, .. } = explain("frames", b"\xff\xfe\n\n03\xc3\n");
    assert_eq!(status, 0);
    let digits = format!("a frame that is refused\n  {}\n", Refusal::Digits);
    let size = format!("a frame that is refused\n  {}\n", Refusal::Size);
    assert_eq!(output, format!("line 1: {digits}\nline 2: {size}\nline 3: {digits}"));
}

/// What each line of the examples is said to be instead, where it is given as the other kind.
fn taken_for(what: &str, name: &str) -> Vec<Option<String>> {
    let lines = lines_of(name);
    let Ran { output, said, .. } = explain(what, (lines.join("\n") + "\n").as_bytes());
    let instead = |block: &str| block.lines().nth(2).map(String::from);
    let blocks: Vec<_> = output.split("\n\n").map(instead).collect();
    assert_eq!((blocks.len(), said.as_str()), (lines.len(), ""));
    blocks
}

#[test]
fn a_frame_among_answers_is_said_to_be_one() {
    for (line, instead) in lines_of("frames.hex").iter().zip(taken_for("answers", "frames.hex")) {
        let is_frame = bytes_of(line).is_some_and(|bytes| Frame::read(&bytes).is_ok());
        let said = is_frame.then_some("  it is a frame: `explain frames` says it");
        assert_eq!(instead.as_deref(), said, "{line}");
    }
}

#[test]
fn an_answer_among_frames_is_said_to_be_one() {
    for (line, instead) in lines_of("answers.hex").iter().zip(taken_for("frames", "answers.hex")) {
        assert_eq!(instead.as_deref(), Some("  it is an answer: `explain answers` says it"), "{line}");
    }
}

#[test]
fn line_ends_and_the_digits_case_make_no_difference() {
    let answers = lines_of("answers.hex");
    let said = explain("answers", (answers.join("\n") + "\n").as_bytes()).output;
    assert_eq!(explain("answers", (answers.join("\r\n") + "\r\n").as_bytes()).output, said);
    assert_eq!(explain("answers", answers.join("\n").to_uppercase().as_bytes()).output, said);
}

#[test]
fn wrong_use_is_told() {
    for arguments in [&[][..], &["words"], &["frames", "answers"], &["--help"]] {
        let Ran { status, output, said } = run(example("explain"), arguments, b"");
        assert_eq!((status, output.as_str()), (2, ""));
        assert!(said.starts_with("usage: explain frames|answers, "), "{said}");
    }
    let Ran { status, output, said } = explain("frames", b"");
    assert_eq!((status, output.as_str(), said.as_str()), (0, "", "explain: standard input has no line\n"));
}

#[test]
fn a_pipe_that_nobody_reads_ends_it_quietly() {
    let mut command = Command::new(example("explain"));
    let input = fs::File::open(format!("{ROOT}/examples/frames.hex")).unwrap();
    let mut child = command.arg("frames").stdin(input).stdout(Stdio::piped()).stderr(Stdio::piped()).spawn().unwrap();
    drop(child.stdout.take());
    let output = child.wait_with_output().unwrap();
    assert!(output.status.success());
    assert_eq!(output.stderr, b"");
}
