//! Little-endian numbers that stand in bytes one behind the other.

/// The bytes that are not read yet. What is not whole is not read, and stays.
#[derive(Clone, Copy, Debug)]
pub(crate) struct Cursor<'a> {
    pub rest: &'a [u8],
}

impl<'a> Cursor<'a> {
    pub fn take<const N: usize>(&mut self) -> Option<[u8; N]> {
        let (taken, rest) = self.rest.split_first_chunk()?;
        self.rest = rest;
        Some(*taken)
    }

    pub fn slice(&mut self, len: usize) -> Option<&'a [u8]> {
        let (taken, rest) = self.rest.split_at_checked(len)?;
        self.rest = rest;
        Some(taken)
    }

    /// 16 bits: a count, a part's number, a position or an origin.
    pub fn count(&mut self) -> Option<u16> {
        self.take().map(u16::from_le_bytes)
    }

    pub fn double(&mut self) -> Option<f64> {
        self.take().map(f64::from_le_bytes)
    }
}
