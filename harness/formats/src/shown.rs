//! How calls are shown in a message: short, as seed, kind and index make a specimen again.

use std::fmt::{self, Debug, Display};

use crate::calls::{RingCall, SliceCall};
use crate::mends::MendCall;
use crate::passes::PassCall;

/// A slice of at most this many values is shown whole.
const WHOLE: usize = 64;

/// Of a longer one, this many values are shown from either end.
const END: usize = 6;

/// The values as a list; of a long one the first and the last few, and how many there are.
pub fn shortened<T: Debug>(values: &[T]) -> String {
    if values.len() <= WHOLE {
        return format!("{values:?}");
    }
    let (front, back) = (&values[..END], &values[values.len() - END..]);
    format!("{front:?} to {back:?} ({} in all)", values.len())
}

impl Display for RingCall {
    fn fmt(&self, f: &mut fmt::Formatter) -> fmt::Result {
        write!(f, "ring {} in {:?}, ", shortened(&self.ring), self.bounds)?;
        write!(f, "lent scratch {}, origin scratch {}, ", self.scratch.len(), self.origin_scratch.len())?;
        write!(f, "output {}, origins {}", self.out.len(), self.out_origins.len())
    }
}

impl Display for SliceCall {
    fn fmt(&self, f: &mut fmt::Formatter) -> fmt::Result {
        write!(f, "numbers {} of lengths {:?} ", shortened(&self.coords), self.lengths)?;
        write!(f, "in {:?}, buffer {:?}, ", self.bounds, self.buffer)?;
        write!(f, "assume_simple {}, skip_boundary_fallback {}, ", self.assume_simple, self.skip_boundary_fallback)?;
        write!(f, "lent scratch {}, origin scratch {}, ", self.scratch.len(), self.origin_scratch.len())?;
        write!(f, "order {}, output {}, ", self.order.len(), self.out.len())?;
        write!(f, "lengths {}, origins {}", self.out_lengths.len(), self.out_origins.len())
    }
}

impl Display for PassCall {
    fn fmt(&self, f: &mut fmt::Formatter) -> fmt::Result {
        write!(f, "ring {} from {} ", shortened(&self.ring), shortened(&self.origins))?;
        write!(f, "at {:?} of {:?}, ", self.edge, self.bounds)?;
        write!(f, "lent output {}, origins {}", self.out.len(), self.out_origins.len())
    }
}

impl Display for MendCall {
    fn fmt(&self, f: &mut fmt::Formatter) -> fmt::Result {
        write!(f, "ring {}, lent output {}", shortened(&self.ring), self.out.len())
    }
}

#[cfg(test)]
mod tests {
    use super::shortened;

    #[test]
    fn long_slices_are_shortened() {
        assert_eq!(shortened(&[1.0, 2.5]), "[1.0, 2.5]");
        let long: Vec<usize> = (0..131_066).collect();
        assert_eq!(
            shortened(&long),
            "[0, 1, 2, 3, 4, 5] to [131060, 131061, 131062, 131063, 131064, 131065] (131066 in all)"
        );
    }
}
