//! What a call leaves out.

/// What a frame call or a slice call leaves out.
#[derive(Clone, Copy, Debug, Default, PartialEq, Eq)]
pub struct Flags {
    /// The exterior is not searched for edges that cross.
    pub assume_simple: bool,
    /// Together with `assume_simple`: a cut exterior is not searched for edges along a bound. Alone it does nothing.
    pub skip_boundary_fallback: bool,
}

impl Flags {
    /// The number of the flags in a frame: 1 for `assume_simple` and 2 for `skip_boundary_fallback`, summed.
    pub const fn number(self) -> u8 {
        self.assume_simple as u8 + 2 * self.skip_boundary_fallback as u8
    }

    /// The flags with this number, if there are such.
    pub(crate) fn from_number(number: u8) -> Option<Flags> {
        (number <= 3).then_some(Flags { assume_simple: number & 1 != 0, skip_boundary_fallback: number & 2 != 0 })
    }
}
