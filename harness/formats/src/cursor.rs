//! Counts, numbers and rings read from bytes, one behind the other.

use crate::frame::{MOST_COORDINATES, MOST_RINGS};
use crate::origins::CutRing;
use crate::{Coord, Part, Refusal};

/// The bytes not read yet; what is not whole is refused with 15.
pub(crate) struct Cursor<'a> {
    pub rest: &'a [u8],
}

impl Cursor<'_> {
    pub fn take<const N: usize>(&mut self) -> Result<[u8; N], Refusal> {
        let (taken, rest) = self.rest.split_first_chunk().ok_or(15)?;
        self.rest = rest;
        Ok(*taken)
    }

    pub fn count(&mut self) -> Result<usize, Refusal> {
        self.take().map(|bytes| usize::from(u16::from_le_bytes(bytes)))
    }

    pub fn number(&mut self) -> Result<f64, Refusal> {
        self.take().map(f64::from_le_bytes)
    }

    /// A part as it is lent.
    pub fn part(&mut self) -> Result<Part, Refusal> {
        self.rings(0, |cursor| cursor.coordinate())
    }

    /// A cut part, as it is answered: an origin follows each coordinate, of which a ring has four at least.
    pub fn cut_part(&mut self) -> Result<Vec<CutRing>, Refusal> {
        self.rings(4, |cursor| Ok((cursor.coordinate()?, cursor.count()? as u16)))
    }

    fn rings<T, R: FromIterator<T>>(
        &mut self,
        fewest: usize,
        vertex: impl Fn(&mut Self) -> Result<T, Refusal>,
    ) -> Result<Vec<R>, Refusal> {
        let ring_count = self.count()?;
        if !(1..=MOST_RINGS).contains(&ring_count) {
            return Err(16);
        }
        (0..ring_count).map(|_| self.ring(fewest, &vertex)).collect()
    }

    fn ring<T, R: FromIterator<T>>(
        &mut self,
        fewest: usize,
        vertex: impl Fn(&mut Self) -> Result<T, Refusal>,
    ) -> Result<R, Refusal> {
        let coordinate_count = self.count()?;
        if !(fewest..=MOST_COORDINATES).contains(&coordinate_count) {
            return Err(17);
        }
        (0..coordinate_count).map(|_| vertex(self)).collect()
    }

    fn coordinate(&mut self) -> Result<Coord, Refusal> {
        Ok((self.number()?, self.number()?))
    }
}
