//! Cuts licence areas to a map tile: safe calls of a static library in which every function is proved to meet its contract.
//! No heap, no allocation: the caller lends every buffer.
//!
//! - [`cut_frame`] takes a polygon or a multipolygon as bytes and writes the answer as bytes. [`FrameBuilder`] builds the ones and
//!   [`FrameAnswer`] reads the others; [`answer_frame`] cuts and reads.
//! - [`cut_polygon`] takes one polygon as numbers.
//! - [`cut_ring`] cuts one ring, and looks at nothing else.
//! - [`mend`] drops the repeated corners of one ring, for which an exterior would want an overlay.
//!
//! Each answers on every input, with a [`Refusal`] where it can't cut or mend. Bounds and buffer may be any numbers; a NaN bound has
//! nothing inside.
//!
//! Each coordinate of a cut comes with its [`Origin`]: its position in the ring that was lent, or the line that made it. By these
//! [`is_along_tile`] tells the area's own border from the tile's edge.
//!
//! A refused call leaves every lent buffer as it was. One that is not refused fills both scratch slices and the order slice with
//! zeros, from end to end. What it leaves in the output, and in the slice for origins, past its answer:
//!
//! - [`cut_frame`] and [`mend`] leave it as it was.
//! - [`cut_polygon`] and [`cut_ring`], which work in these two slices too, leave zeros (+0.0 in the output) up to the length that they
//!   ask of each, whatever they answer, and all that is beyond that length as it was.
//!
//! That is proved: of bytes and whole numbers exactly, of numbers in `f64` as far as the proofs tell two of them apart, which
//! is by number and sign of zero, all NaNs being one. The library writes nothing where it leaves a buffer as it was, so the
//! bits of a NaN stay there too: the tests see that, and no contract says it.
//!
//! It is for x86-64 Linux, with 64-bit pointers and doubles in SSE2 registers; a build for another target is refused.
//!
//! The functions here panic only if the library answers what its contract rules out, which is proved not to happen: a panic
//! says that another library was linked.

#![no_std]
#![warn(missing_docs)]

// build.rs refuses other targets by name, but rustc alone, without cargo, runs no build.rs. It sets no cfg for its flag
// +soft-float, and warns of it instead.
#[cfg(not(all(target_arch = "x86_64", target_os = "linux", target_pointer_width = "64", target_feature = "sse2")))]
compile_error!(
    "ringcut: this target is refused: \
     the library is for x86-64 Linux, with 64-bit pointers and doubles in SSE2 registers"
);

mod answer;
mod answer_error;
mod bounds;
mod cursor;
mod flags;
mod frame;
mod frame_answer;
mod origin;
pub mod raw;
mod reason;
mod refusal;
mod rings;
mod room;
mod version;
mod vertex;

pub use answer::Answer;
pub use answer_error::AnswerError;
pub use bounds::Bounds;
pub use flags::Flags;
pub use frame::{Frame, FrameBuilder, Kind, Parts, LONGEST_FRAME};
pub use frame_answer::{FrameAnswer, ListedPart, ListedParts, PartAnswer};
pub use origin::Origin;
pub use reason::{Edge, Issue, Reason};
pub use refusal::Refusal;
pub use rings::{Coordinate, Coordinates, Ring, Rings};
pub use room::{room_for_ring, MOST_FRAME_OUTPUT};
pub use version::{library_version, Version, VERSION};
pub use vertex::{is_along_tile, Vertex};

/// README.md, so that its examples are run with the other tests.
#[cfg(doctest)]
#[doc = include_str!("../README.md")]
struct Readme;

/// What is lent to a ring call to write to: for a ring lent with n coordinates each slice of numbers has at least
/// 2 × [`room_for_ring`]`(n)`, each slice of origins at least [`room_for_ring`]`(n)`.
#[derive(Debug)]
pub struct RingBuffers<'a> {
    /// Zero after an answer.
    pub scratch: &'a mut [f64],
    /// Zero after an answer.
    pub origin_scratch: &'a mut [u16],
    /// After an answer: the cut ring from the front, as x, y numbers, then zeros up to 2 × [`room_for_ring`]`(n)` numbers. All
    /// that is beyond these stays as it was.
    pub out: &'a mut [f64],
    /// After an answer: the [`Origin`] of each coordinate of the cut ring, from the front, then zeros up to
    /// [`room_for_ring`]`(n)`. All that is beyond these stays as it was.
    pub out_origins: &'a mut [u16],
}

/// What is lent to a slice call to write to. A ring whose last coordinate doesn't equal its first counts one coordinate more
/// than was lent, and every ring whose first coordinate holds a NaN does; [`room_for_ring`] of n + 1 is always enough.
#[derive(Debug)]
pub struct PolygonBuffers<'a> {
    /// At least 2 × the largest ring's [`room_for_ring`] numbers; zero after an answer.
    pub scratch: &'a mut [f64],
    /// At least the largest ring's [`room_for_ring`]; zero after an answer.
    pub origin_scratch: &'a mut [u16],
    /// At least the largest ring's [`room_for_ring`]; zero after an answer.
    pub order: &'a mut [u32],
    /// At least 2 × the sum of the rings' [`room_for_ring`] numbers. After a cut: its rings from the front, one behind the
    /// other, as x, y numbers, then zeros up to that many numbers; after every other answer zeros alone. All that is beyond
    /// these stays as it was.
    pub out: &'a mut [f64],
    /// At least as many as rings are lent. After a cut: how many coordinates each of its rings has, from the front. All else
    /// in it stays as it was.
    pub out_lengths: &'a mut [u32],
    /// At least the sum of the rings' [`room_for_ring`]. After a cut: the [`Origin`] of each of its coordinates from the front,
    /// ring behind ring, then zeros up to that sum; after every other answer zeros alone. All that is beyond these stays as it
    /// was.
    pub out_origins: &'a mut [u16],
}

/// Cuts the frame's polygon or multipolygon and answers how many bytes of `out` the answer takes.
///
/// `out` needs 5 bytes and, for each part, 6, 2 for each ring and 18 × [`room_for_ring`] of its coordinates, the closing one
/// counted; [`MOST_FRAME_OUTPUT`] bytes are always enough.
///
/// Every frame that is not refused takes about 70 KiB of the stack, however few its coordinates; 100 KiB are enough.
///
/// The page of [`Frame`] has the bytes of a frame, which [`FrameBuilder`] builds, and that of [`FrameAnswer`] those of an answer;
/// [`answer_frame`] reads it at once.
///
/// ```
/// use ringcut::{cut_frame, Bounds, Flags, FrameBuilder, Kind, LONGEST_FRAME, MOST_FRAME_OUTPUT};
///
/// let flags = Flags { assume_simple: true, skip_boundary_fallback: true };
/// let bounds = Bounds { west: 0.0, south: 0.0, east: 10.0, north: 10.0 };
/// let mut room = [0; LONGEST_FRAME];
/// let mut builder = FrameBuilder::new(Kind::Polygon, flags, bounds, 0.0, &mut room)?;
/// // A polygon that crosses the east bound.
/// builder.part([[5., 5., 15., 5., 15., 8., 5., 8., 5., 5.]])?;
///
/// let mut out = [0; MOST_FRAME_OUTPUT];
/// let len = cut_frame(builder.finish()?, &mut out)?;
/// // Part 0 is listed, cut to one ring of five coordinates, each with its origin.
/// assert_eq!(out[..13], [3, 0, 0, 1, 0, 0, 0, 4, 0, 1, 0, 5, 0]);
/// assert_eq!(len, 13 + 5 * 18);
/// # Ok::<(), ringcut::Refusal>(())
/// ```
#[inline]
pub fn cut_frame(frame: &[u8], out: &mut [u8]) -> Result<usize, Refusal> {
    count(raw::frame(frame, out))
}

/// Cuts the frame's polygon or multipolygon as [`cut_frame`] does, and reads the answer from the bytes that it has written to `out`.
/// The page of [`FrameAnswer`] shows how.
pub fn answer_frame<'a>(frame: &[u8], out: &'a mut [u8]) -> Result<FrameAnswer<'a>, Refusal> {
    let len = cut_frame(frame, out)?;
    let answer = FrameAnswer::read(&out[..len]);
    Ok(answer.unwrap_or_else(|error| unreachable!("the library has answered what its contract rules out: {error}")))
}

/// Cuts one polygon, its rings one behind the other in `coords` as x, y numbers, exterior first, and their lengths in
/// coordinates in `lengths`. The bounds are widened by `buffer` on each side. Which bits a NaN in the output has is open.
///
/// Past the rings of a cut, and from the front after every other answer, `lent.out` holds zeros up to 2 × the sum of
/// [`room_for_ring`] of the rings, their closing coordinates counted as [`PolygonBuffers`] says, and `lent.out_origins` up to that
/// sum. What was lent beyond that stays as it was.
///
/// ```
/// use ringcut::{cut_polygon, room_for_ring, Answer, Bounds, Edge, Flags, Issue, Origin, PolygonBuffers, Reason};
///
/// const ROOM: usize = room_for_ring(5);
/// let (mut scratch, mut origin_scratch, mut order) = ([0.0; 2 * ROOM], [0; ROOM], [0; ROOM]);
/// // One number and one origin more than is asked for.
/// let (mut out, mut out_lengths, mut out_origins) = ([7.0; 2 * ROOM + 1], [0; 1], [7; ROOM + 1]);
/// let mut cut = |flags, coords: &[f64; 10]| {
///     let bounds = Bounds { west: 0.0, south: 0.0, east: 10.0, north: 10.0 };
///     let lent = PolygonBuffers {
///         scratch: &mut scratch,
///         origin_scratch: &mut origin_scratch,
///         order: &mut order,
///         out: &mut out,
///         out_lengths: &mut out_lengths,
///         out_origins: &mut out_origins,
///     };
///     cut_polygon(flags, bounds, 0.0, coords, &[5], lent)
/// };
/// let both = Flags { assume_simple: true, skip_boundary_fallback: true };
///
/// // Inside the bounds.
/// assert_eq!(cut(Flags::default(), &[2., 2., 8., 2., 8., 8., 2., 8., 2., 2.]), Ok(Answer::Unchanged));
/// // A bow tie.
/// let bow_tie = [2., 2., 8., 8., 8., 2., 2., 8., 2., 2.];
/// let crossing = Reason::Input(Issue::Crossing { lower: 0, higher: 2 });
/// assert_eq!(cut(Flags::default(), &bow_tie), Ok(Answer::Overlay(crossing)));
/// assert_eq!(crossing.to_string(), "edges 0 and 2 cross");
/// assert_eq!(cut(both, &bow_tie), Ok(Answer::Unchanged));
/// // Across the east bound: its cut has an edge along it.
/// let across = [5., 5., 15., 5., 15., 8., 5., 8., 5., 5.];
/// assert_eq!(cut(Flags::default(), &across), Ok(Answer::Overlay(Reason::Bridge(Edge::Right))));
/// assert_eq!(cut(both, &across), Ok(Answer::Cut { rings: 1 }));
/// assert_eq!(out_lengths, [5]);
/// assert_eq!(out[..10], [5., 5., 10., 5., 10., 8., 5., 8., 5., 5.]);
/// let right = Origin::Line(Edge::Right);
/// let origins = [Origin::Position(0), right, right, Origin::Position(3), Origin::Position(0)];
/// assert_eq!(out_origins[..5], origins.map(Origin::number));
/// // Behind that are zeros, and what was lent beyond the room stays.
/// assert_eq!(out[10..2 * ROOM], [0.0; 2 * ROOM - 10]);
/// assert_eq!(out_origins[5..ROOM], [0; ROOM - 5]);
/// assert_eq!((out[2 * ROOM], out_origins[ROOM]), (7.0, 7));
/// ```
#[inline]
pub fn cut_polygon(
    flags: Flags,
    bounds: Bounds,
    buffer: f64,
    coords: &[f64],
    lengths: &[u32],
    lent: PolygonBuffers,
) -> Result<Answer, Refusal> {
    let Flags { assume_simple, skip_boundary_fallback } = flags;
    Answer::from_code(raw::polygon(
        assume_simple.into(),
        skip_boundary_fallback.into(),
        bounds,
        buffer,
        coords,
        lengths,
        lent,
    ))
}

/// Cuts one ring of x, y numbers, closed or not, and answers how many coordinates of `lent.out` the cut ring takes: none, or
/// at least three, the closing one counted. Which bits a NaN in the output has is open.
///
/// Past the cut ring, from the front where it takes none, `lent.out` holds zeros up to 2 × [`room_for_ring`]`(n)` numbers, for a
/// ring lent with n coordinates, and `lent.out_origins` up to [`room_for_ring`]`(n)`. What was lent beyond that stays as it was.
///
/// ```
/// use ringcut::{cut_ring, room_for_ring, Bounds, Edge, Origin, RingBuffers};
///
/// const ROOM: usize = room_for_ring(4);
/// let bounds = Bounds { west: 0.0, south: 0.0, east: 10.0, north: 10.0 };
/// let (mut scratch, mut origin_scratch) = ([0.0; 2 * ROOM], [0; ROOM]);
/// // One number and one origin more than is asked for.
/// let (mut out, mut out_origins) = ([7.0; 2 * ROOM + 1], [7; ROOM + 1]);
/// let mut cut = |ring: &[f64; 8]| {
///     let lent = RingBuffers {
///         scratch: &mut scratch,
///         origin_scratch: &mut origin_scratch,
///         out: &mut out,
///         out_origins: &mut out_origins,
///     };
///     cut_ring(ring, bounds, lent)
/// };
///
/// assert_eq!(cut(&[1., 1., 2., 2., 1., 1., 1., 1.]), Ok(0));
/// assert_eq!(cut(&[5., 5., 15., 5., 15., 8., 5., 8.]), Ok(5));
/// assert_eq!(out[..10], [5., 5., 10., 5., 10., 8., 5., 8., 5., 5.]);
/// assert_eq!(out_origins[..5], [0, 65_533, 65_533, 3, 0]);
/// assert_eq!(Origin::from(out_origins[1]), Origin::Line(Edge::Right));
/// // Behind that are zeros, and what was lent beyond the room stays.
/// assert_eq!(out[10..2 * ROOM], [0.0; 2 * ROOM - 10]);
/// assert_eq!(out_origins[5..ROOM], [0; ROOM - 5]);
/// assert_eq!((out[2 * ROOM], out_origins[ROOM]), (7.0, 7));
/// ```
#[inline]
pub fn cut_ring(ring: &[f64], bounds: Bounds, lent: RingBuffers) -> Result<usize, Refusal> {
    count(raw::ring(ring, bounds, lent))
}

/// Mends one ring of x, y numbers, closed or not: drops its repeated corners, for which an exterior wants an overlay
/// ([`Issue::Repeated`]). Answers how many coordinates it keeps, 4 to 65,532, the closing one counted; they stand at the front of `out`
/// in their order. What was lent behind them stays as it was.
///
/// A ring whose last coordinate doesn't equal its first is closed, and the closing one counts in all that is asked here; a NaN equals
/// nothing. The call goes through the closed ring from its first coordinate, which it keeps, and drops each one, except the closing
/// one, that differs from the last one kept by less than 1e-10 in x and in y. `out` needs 2 numbers for each coordinate of the closed
/// ring, however many are kept: `ring.len() + 2` are always enough. Which bits a NaN in the output has is open.
///
/// It refuses, in this order, an odd count of numbers ([`Refusal::Lengths`]), over 65,532 coordinates ([`Refusal::Coordinates`]), an
/// output that is too short ([`Refusal::Output`]), and a ring of which fewer than 4 coordinates remain ([`Refusal::Short`]).
///
/// - It moves nothing: but for closing the ring it only drops. No corner of a mended ring is repeated, and mending it again drops none;
///   where it begins with a NaN it is closed again, and so is one longer.
/// - Edges that cross are not mended.
/// - Holes may be mended too; no call looks for repeated corners in them.
/// - Positions that a later call tells, as [origins](Origin) or in an [`Issue`], are those of the mended ring. Who wants them in the
///   ring as it was keeps count. The mended ring is the closed one with some coordinates left out: where it holds no NaN, each but the
///   closing one is the first there that equals it, behind where the one before it was found.
///
/// ```
/// use ringcut::{mend, Refusal};
///
/// // Corners 1 and 4 are repeated, corner 1 not to the last digit.
/// let ring = [5., 5., 15., 5., 15.00000000005, 5., 15., 8., 5., 8., 5., 8., 5., 5.];
/// let mut out = [7.0; 16];
/// assert_eq!(mend(&ring, &mut out), Ok(5));
/// assert_eq!(out[..10], [5., 5., 15., 5., 15., 8., 5., 8., 5., 5.]);
/// // What was lent behind the mended ring stays.
/// assert_eq!(out[10..], [7.0; 6]);
/// // Which corners of the ring these are, but for the closing one.
/// let mut lent = ring.chunks(2).enumerate();
/// let corners = out[..8].chunks(2).map(|kept| lent.find(|(_, corner)| *corner == kept).unwrap().0);
/// assert!(corners.eq([0, 1, 3, 4]));
///
/// // Lent open, it is closed, and asks for room for seven coordinates all the same.
/// assert_eq!(mend(&ring[..12], &mut out[..14]), Ok(5));
/// assert_eq!(mend(&ring[..12], &mut out[..13]), Err(Refusal::Output));
///
/// // Too little is left of a ring that goes to and fro.
/// assert_eq!(mend(&[5., 5., 15., 5., 15., 5., 5., 5.], &mut out), Err(Refusal::Short));
/// assert_eq!(out[10..], [7.0; 6]);
/// ```
#[inline]
pub fn mend(ring: &[f64], out: &mut [f64]) -> Result<usize, Refusal> {
    count(raw::mend(ring, out))
}

/// What the code of a frame call, a ring call or a mending call stands for: a count, or minus a refusal.
#[inline]
fn count(code: i64) -> Result<usize, Refusal> {
    usize::try_from(code).map_err(|_| Refusal::from_code(code))
}
