//! Rings as they stand in the bytes of frames and of answers: how many there are, and of each how many coordinates it has and these.

use core::fmt::{self, Debug, Formatter};
use core::iter::FusedIterator;
use core::marker::PhantomData;
use core::slice::ChunksExact;

use crate::cursor::Cursor;
use crate::Vertex;

/// No part has more rings.
pub(crate) const MOST_RINGS: usize = 64;
/// No ring has more coordinates, whatever the size of a frame leaves room for.
pub(crate) const MOST_COORDINATES: usize = 4_096;

/// What a coordinate of a ring is read as: `[f64; 2]`, x and y, in a frame, and a [`Vertex`] in a cut. There are no others.
pub trait Coordinate: Stored {}

impl Coordinate for [f64; 2] {}
impl Coordinate for Vertex {}

/// How a coordinate stands in bytes. Its name can't be said outside of the crate, so that [`Coordinate`] is for these two alone.
pub trait Stored: Copy + Debug {
    /// How many bytes it takes.
    const SIZE: usize;
    /// How few of them a ring has.
    const FEWEST: usize;

    /// The coordinate of so many bytes.
    fn from_bytes(bytes: &[u8]) -> Option<Self>;
}

impl Stored for [f64; 2] {
    const SIZE: usize = 16;
    const FEWEST: usize = 0;

    fn from_bytes(bytes: &[u8]) -> Option<Self> {
        let mut cursor = Cursor { rest: bytes };
        Some([cursor.double()?, cursor.double()?])
    }
}

impl Stored for Vertex {
    const SIZE: usize = 18;
    /// A cut exterior that has fewer wants an overlay, and a cut hole that has fewer is left out.
    const FEWEST: usize = 4;

    fn from_bytes(bytes: &[u8]) -> Option<Self> {
        let mut cursor = Cursor { rest: bytes };
        Some(Vertex { x: cursor.double()?, y: cursor.double()?, origin: cursor.count()?.into() })
    }
}

/// Why bytes are not the rings of a part.
#[derive(Clone, Copy)]
pub(crate) enum RingsError {
    /// They end before a count or a coordinate is whole.
    Truncated,
    /// There is no ring, or there are too many.
    RingCount,
    /// A ring has too few coordinates or too many.
    CoordinateCount,
}

/// The rings of a part, exterior first, one at a time. [`len`](ExactSizeIterator::len) says how many are left.
#[derive(Clone)]
pub struct Rings<'a, C> {
    left: usize,
    cursor: Cursor<'a>,
    coordinate: PhantomData<C>,
}

impl<'a, C: Coordinate> Rings<'a, C> {
    /// Goes through the rings that begin at the cursor, and leaves it behind them.
    pub(crate) fn read(cursor: &mut Cursor<'a>) -> Result<Rings<'a, C>, RingsError> {
        let left = usize::from(cursor.count().ok_or(RingsError::Truncated)?);
        if !(1..=MOST_RINGS).contains(&left) {
            return Err(RingsError::RingCount);
        }
        let rings = Rings { left, cursor: *cursor, coordinate: PhantomData };
        for _ in 0..left {
            Ring::<C>::read(cursor)?;
        }
        Ok(rings)
    }
}

/// One ring, read from its bytes as it is gone through.
#[derive(Clone, Copy)]
pub struct Ring<'a, C> {
    bytes: &'a [u8],
    coordinate: PhantomData<C>,
}

impl<'a, C: Coordinate> Ring<'a, C> {
    fn read(cursor: &mut Cursor<'a>) -> Result<Ring<'a, C>, RingsError> {
        let count = usize::from(cursor.count().ok_or(RingsError::Truncated)?);
        if !(C::FEWEST..=MOST_COORDINATES).contains(&count) {
            return Err(RingsError::CoordinateCount);
        }
        let bytes = cursor.slice(C::SIZE * count).ok_or(RingsError::Truncated)?;
        Ok(Ring { bytes, coordinate: PhantomData })
    }

    /// How many coordinates it has, the closing one counted where it stands there.
    pub fn len(&self) -> usize {
        self.bytes.len() / C::SIZE
    }

    /// Whether it has none, as a ring of a frame may. A ring of a cut has some.
    pub fn is_empty(&self) -> bool {
        self.bytes.is_empty()
    }

    /// Its coordinates in their order.
    pub fn iter(&self) -> Coordinates<'a, C> {
        Coordinates { chunks: self.bytes.chunks_exact(C::SIZE), coordinate: PhantomData }
    }
}

/// The coordinates of a ring, one at a time. [`len`](ExactSizeIterator::len) says how many are left.
#[derive(Clone)]
pub struct Coordinates<'a, C> {
    chunks: ChunksExact<'a, u8>,
    coordinate: PhantomData<C>,
}

impl<'a, C: Coordinate> Iterator for Rings<'a, C> {
    type Item = Ring<'a, C>;

    fn next(&mut self) -> Option<Ring<'a, C>> {
        self.left = self.left.checked_sub(1)?;
        // It has been read once, so it is read again.
        Ring::read(&mut self.cursor).ok()
    }

    fn size_hint(&self) -> (usize, Option<usize>) {
        (self.left, Some(self.left))
    }
}

impl<C: Coordinate> Iterator for Coordinates<'_, C> {
    type Item = C;

    fn next(&mut self) -> Option<C> {
        C::from_bytes(self.chunks.next()?)
    }

    fn size_hint(&self) -> (usize, Option<usize>) {
        self.chunks.size_hint()
    }
}

impl<C: Coordinate> ExactSizeIterator for Rings<'_, C> {}
impl<C: Coordinate> FusedIterator for Rings<'_, C> {}
impl<C: Coordinate> ExactSizeIterator for Coordinates<'_, C> {}
impl<C: Coordinate> FusedIterator for Coordinates<'_, C> {}

impl<'a, C: Coordinate> IntoIterator for Ring<'a, C> {
    type Item = C;
    type IntoIter = Coordinates<'a, C>;

    fn into_iter(self) -> Coordinates<'a, C> {
        self.iter()
    }
}

impl<'a, C: Coordinate> IntoIterator for &Ring<'a, C> {
    type Item = C;
    type IntoIter = Coordinates<'a, C>;

    fn into_iter(self) -> Coordinates<'a, C> {
        self.iter()
    }
}

impl<C: Coordinate> Debug for Rings<'_, C> {
    fn fmt(&self, f: &mut Formatter) -> fmt::Result {
        f.debug_list().entries(self.clone()).finish()
    }
}

impl<C: Coordinate> Debug for Ring<'_, C> {
    fn fmt(&self, f: &mut Formatter) -> fmt::Result {
        f.debug_list().entries(self.iter()).finish()
    }
}

impl<C: Coordinate> Debug for Coordinates<'_, C> {
    fn fmt(&self, f: &mut Formatter) -> fmt::Result {
        f.debug_list().entries(self.clone()).finish()
    }
}
