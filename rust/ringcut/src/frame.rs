//! Frames: the bytes that a frame call takes, read and built.

use core::fmt::{self, Debug, Formatter};
use core::iter::FusedIterator;

use crate::cursor::Cursor;
use crate::rings::{RingsError, MOST_COORDINATES, MOST_RINGS};
use crate::{Bounds, Flags, Refusal, Rings};

/// The bytes of the longest frame.
pub const LONGEST_FRAME: usize = 5_120;

/// The bytes before the parts, and where among them the count of parts stands.
const HEAD: usize = 44;
const PART_COUNT: usize = 42;

/// No frame has more parts.
pub(crate) const MOST_PARTS: usize = 256;

/// What a frame holds.
#[derive(Clone, Copy, Debug, PartialEq, Eq, Hash)]
pub enum Kind {
    /// One polygon, which is part 0.
    Polygon = 3,
    /// Up to 256 polygons, or none.
    MultiPolygon = 6,
}

impl Kind {
    /// The number of the kind in a frame: 3 for a polygon, 6 for a multipolygon.
    pub const fn number(self) -> u8 {
        self as u8
    }

    fn from_number(number: u8) -> Option<Kind> {
        [Kind::Polygon, Kind::MultiPolygon].into_iter().find(|kind| kind.number() == number)
    }

    /// Whether a frame of this kind can have so many parts.
    fn has_parts(self, count: usize) -> bool {
        match self {
            Kind::Polygon => count == 1,
            Kind::MultiPolygon => count <= MOST_PARTS,
        }
    }
}

/// A frame, read from its bytes: what a frame call cuts.
///
/// | bytes | a frame: 44 to 5,120 bytes, numbers little-endian |
/// |---|---|
/// | 1 | its [kind](Kind::number) |
/// | 1 | its [flags](Flags::number) |
/// | 5 × 8 | west, south, east, north and buffer |
/// | 2 | how many parts, up to 256 (a polygon: 1); of each: |
/// | 2 | how many rings, 1 to 64, exterior first; of each: |
/// | 2 | how many coordinates, up to 4,096; of each: |
/// | 8, 8 | x and y |
///
/// [`Frame::read`] refuses what [`cut_frame`](crate::cut_frame) refuses of a frame, by the same refusals.
///
/// ```
/// use ringcut::{Bounds, Flags, Frame, FrameBuilder, Kind, Refusal, LONGEST_FRAME};
///
/// let bounds = Bounds { west: 0.0, south: 0.0, east: 10.0, north: 10.0 };
/// let mut room = [0; LONGEST_FRAME];
/// let mut builder = FrameBuilder::new(Kind::Polygon, Flags::default(), bounds, 0.5, &mut room)?;
/// builder.part([[2.0, 2.0, 8.0, 2.0, 8.0, 8.0]])?;
/// let bytes = builder.finish()?;
///
/// let frame = Frame::read(bytes)?;
/// assert_eq!((frame.kind, frame.bounds, frame.buffer), (Kind::Polygon, bounds, 0.5));
/// for rings in frame.parts() {
///     for ring in rings {
///         assert!(ring.iter().eq([[2.0, 2.0], [8.0, 2.0], [8.0, 8.0]]));
///     }
/// }
/// assert_eq!(Frame::read(&bytes[..bytes.len() - 1]).unwrap_err(), Refusal::Truncated);
/// # Ok::<(), Refusal>(())
/// ```
#[derive(Clone, Debug)]
pub struct Frame<'a> {
    /// What it holds.
    pub kind: Kind,
    /// Its flags.
    pub flags: Flags,
    /// The bounds of the tile, without the buffer.
    pub bounds: Bounds,
    /// By how much the bounds are widened on each side.
    pub buffer: f64,
    parts: Parts<'a>,
}

impl<'a> Frame<'a> {
    /// Reads a frame, or says why a frame call refuses it.
    pub fn read(bytes: &'a [u8]) -> Result<Frame<'a>, Refusal> {
        if !(HEAD..=LONGEST_FRAME).contains(&bytes.len()) {
            return Err(Refusal::Size);
        }
        let mut cursor = Cursor { rest: bytes };
        let frame = Frame::read_head(&mut cursor)?;
        for _ in 0..frame.parts.left {
            read_part(&mut cursor)?;
        }
        if !cursor.rest.is_empty() {
            return Err(Refusal::Trailing);
        }
        Ok(frame)
    }

    /// Reads all before the parts, and leaves the cursor there.
    fn read_head(cursor: &mut Cursor<'a>) -> Result<Frame<'a>, Refusal> {
        let [kind, flags] = cursor.take().ok_or(Refusal::Truncated)?;
        let kind = Kind::from_number(kind).ok_or(Refusal::Kind)?;
        let flags = Flags::from_number(flags).ok_or(Refusal::Flags)?;
        let mut double = || cursor.double().ok_or(Refusal::Truncated);
        let bounds = Bounds { west: double()?, south: double()?, east: double()?, north: double()? };
        let buffer = double()?;
        let left = usize::from(cursor.count().ok_or(Refusal::Truncated)?);
        if !kind.has_parts(left) {
            return Err(Refusal::PartCount);
        }
        Ok(Frame { kind, flags, bounds, buffer, parts: Parts { left, cursor: *cursor } })
    }

    /// Its parts in their order; of each its rings.
    pub fn parts(&self) -> Parts<'a> {
        self.parts.clone()
    }
}

fn read_part<'a>(cursor: &mut Cursor<'a>) -> Result<Rings<'a, [f64; 2]>, Refusal> {
    Rings::read(cursor).map_err(|error| match error {
        RingsError::Truncated => Refusal::Truncated,
        RingsError::RingCount => Refusal::RingCount,
        RingsError::CoordinateCount => Refusal::CoordinateCount,
    })
}

/// The parts of a frame, one at a time; of each its rings. [`len`](ExactSizeIterator::len) says how many are left.
#[derive(Clone)]
pub struct Parts<'a> {
    left: usize,
    cursor: Cursor<'a>,
}

impl<'a> Iterator for Parts<'a> {
    type Item = Rings<'a, [f64; 2]>;

    fn next(&mut self) -> Option<Self::Item> {
        self.left = self.left.checked_sub(1)?;
        // It has been read once, so it is read again.
        read_part(&mut self.cursor).ok()
    }

    fn size_hint(&self) -> (usize, Option<usize>) {
        (self.left, Some(self.left))
    }
}

impl ExactSizeIterator for Parts<'_> {}
impl FusedIterator for Parts<'_> {}

impl Debug for Parts<'_> {
    fn fmt(&self, f: &mut Formatter) -> fmt::Result {
        f.debug_list().entries(self.clone()).finish()
    }
}

/// Builds a frame in lent bytes, part by part. What breaks a limit of frames is refused as a frame call would refuse it, and a ring that is
/// not x, y numbers as the other calls would ([`Refusal::Lengths`]). The frame is then as it was built so far.
///
/// ```
/// use ringcut::{Bounds, Flags, FrameBuilder, Kind, Refusal, LONGEST_FRAME};
///
/// let flags = Flags { assume_simple: true, skip_boundary_fallback: true };
/// let bounds = Bounds { west: 0.0, south: 0.0, east: 10.0, north: 10.0 };
/// let mut room = [0; LONGEST_FRAME];
/// let mut builder = FrameBuilder::new(Kind::MultiPolygon, flags, bounds, 0.0, &mut room)?;
///
/// // A part is its rings, exterior first; a ring is x, y numbers, closed or not.
/// builder.part([[5.0, 5.0, 15.0, 5.0, 15.0, 8.0], [7.0, 6.0, 8.0, 6.0, 8.0, 7.0]])?;
/// builder.part([[2.0, 2.0, 3.0, 2.0]])?;
///
/// // What is refused is not there.
/// assert_eq!(builder.part([[0.0; 5]]).unwrap_err(), Refusal::Lengths);
/// assert_eq!(builder.part([[0.0; 8_194]]).unwrap_err(), Refusal::CoordinateCount);
/// assert_eq!(builder.part([[0.0; 640]]).unwrap_err(), Refusal::Size);
/// assert_eq!(builder.finish()?.len(), 44 + (2 + 2 * (2 + 3 * 16)) + (2 + 2 + 2 * 16));
/// # Ok::<(), Refusal>(())
/// ```
pub struct FrameBuilder<'a> {
    kind: Kind,
    parts: usize,
    out: Writer<'a>,
}

impl<'a> FrameBuilder<'a> {
    /// Begins a frame at the front of `out`: [`LONGEST_FRAME`] bytes are always enough. Fewer than 44 are refused
    /// ([`Refusal::Output`]), and left as they were. What stands behind the frame in `out` once it is finished is not said.
    pub fn new(
        kind: Kind,
        flags: Flags,
        bounds: Bounds,
        buffer: f64,
        out: &'a mut [u8],
    ) -> Result<FrameBuilder<'a>, Refusal> {
        if out.len() < HEAD {
            return Err(Refusal::Output);
        }
        let mut out = Writer { out, len: 0 };
        out.put(&[kind.number(), flags.number()])?;
        let Bounds { west, south, east, north } = bounds;
        for number in [west, south, east, north, buffer] {
            out.put(&number.to_le_bytes())?;
        }
        out.put_count(0)?;
        Ok(FrameBuilder { kind, parts: 0, out })
    }

    /// Puts a part behind those that are there: its rings, exterior first, each as x, y numbers, closed or not.
    ///
    /// It refuses, as it comes to them, a part more than the kind has ([`Refusal::PartCount`]), over 64 rings or none
    /// ([`Refusal::RingCount`]), an odd count of numbers ([`Refusal::Lengths`]), over 4,096 coordinates of a ring
    /// ([`Refusal::CoordinateCount`]), a frame that grows over 5,120 bytes ([`Refusal::Size`]), and one that grows over the bytes that
    /// were lent ([`Refusal::Output`]). The frame is then as it was before this part.
    ///
    /// The count of rings takes its two bytes before the rings are counted, and a ring's numbers are counted before they take any: so no
    /// ring at all, in a frame that is full, is refused for the size or for the room.
    pub fn part(
        &mut self,
        rings: impl IntoIterator<Item = impl AsRef<[f64]>>,
    ) -> Result<&mut FrameBuilder<'a>, Refusal> {
        let parts = self.parts + 1;
        if !self.kind.has_parts(parts) {
            return Err(Refusal::PartCount);
        }
        let len = self.out.len;
        if let Err(refusal) = self.out.put_rings(rings) {
            self.out.len = len;
            return Err(refusal);
        }
        self.parts = parts;
        Ok(self)
    }

    /// The frame's bytes. A polygon's without its part is refused ([`Refusal::PartCount`]).
    pub fn finish(mut self) -> Result<&'a [u8], Refusal> {
        if !self.kind.has_parts(self.parts) {
            return Err(Refusal::PartCount);
        }
        self.out.set_count(PART_COUNT, self.parts)?;
        let Writer { out, len } = self.out;
        Ok(&out[..len])
    }
}

impl Debug for FrameBuilder<'_> {
    fn fmt(&self, f: &mut Formatter) -> fmt::Result {
        let FrameBuilder { kind, parts, out } = self;
        f.debug_struct("FrameBuilder").field("kind", kind).field("parts", parts).field("len", &out.len).finish()
    }
}

/// A frame that grows in lent bytes: its first `len` of these.
struct Writer<'a> {
    out: &'a mut [u8],
    len: usize,
}

impl Writer<'_> {
    fn put(&mut self, bytes: &[u8]) -> Result<(), Refusal> {
        let end = self.len + bytes.len();
        if end > LONGEST_FRAME {
            return Err(Refusal::Size);
        }
        self.out.get_mut(self.len..end).ok_or(Refusal::Output)?.copy_from_slice(bytes);
        self.len = end;
        Ok(())
    }

    /// Puts a count, which the limits of frames keep under 2^16.
    fn put_count(&mut self, count: usize) -> Result<(), Refusal> {
        self.put(&(count as u16).to_le_bytes())
    }

    /// Puts a count in the place of the one that stands at `at`.
    fn set_count(&mut self, at: usize, count: usize) -> Result<(), Refusal> {
        let len = core::mem::replace(&mut self.len, at);
        self.put_count(count)?;
        self.len = len;
        Ok(())
    }

    fn put_rings(&mut self, rings: impl IntoIterator<Item = impl AsRef<[f64]>>) -> Result<(), Refusal> {
        let (at, mut count) = (self.len, 0);
        self.put_count(count)?;
        for ring in rings {
            count += 1;
            if count > MOST_RINGS {
                return Err(Refusal::RingCount);
            }
            self.put_ring(ring.as_ref())?;
        }
        if count == 0 {
            return Err(Refusal::RingCount);
        }
        self.set_count(at, count)
    }

    fn put_ring(&mut self, numbers: &[f64]) -> Result<(), Refusal> {
        if numbers.len() % 2 == 1 {
            return Err(Refusal::Lengths);
        }
        let count = numbers.len() / 2;
        if count > MOST_COORDINATES {
            return Err(Refusal::CoordinateCount);
        }
        self.put_count(count)?;
        numbers.iter().try_for_each(|number| self.put(&number.to_le_bytes()))
    }
}
