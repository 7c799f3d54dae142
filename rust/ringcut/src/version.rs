//! Which version a build is of.

use core::fmt::{self, Display, Formatter};

use crate::raw;

/// The version of this crate. The library that is linked has its own, [`library_version`]: the two come together, so where they differ one
/// of them is left over from another build.
pub const VERSION: Version = Version { major: 1, minor: 0, patch: 0 };

/// A version, as the repository's CHANGELOG.md lists them. As text it is its three numbers with dots between.
///
/// ```
/// use ringcut::{library_version, Version, VERSION};
///
/// assert_eq!(library_version(), VERSION);
/// assert_eq!(Version { major: 12, minor: 34, patch: 5 }.to_string(), "12.34.5");
/// ```
#[derive(Clone, Copy, Debug, PartialEq, Eq, PartialOrd, Ord, Hash)]
pub struct Version {
    /// Is raised where a caller has to change something: a call, a format or an answer is another.
    pub major: u32,
    /// Is raised where something is new.
    pub minor: u32,
    /// Is raised where a mistake is mended or a call is faster.
    pub patch: u32,
}

impl Version {
    /// The version that a number stands for: a million times the major one, a thousand times the minor one and the patch.
    const fn from_number(number: u32) -> Version {
        Version { major: number / 1_000_000, minor: number / 1_000 % 1_000, patch: number % 1_000 }
    }
}

impl Display for Version {
    fn fmt(&self, f: &mut Formatter) -> fmt::Result {
        write!(f, "{}.{}.{}", self.major, self.minor, self.patch)
    }
}

/// The version of the library that is linked.
pub fn library_version() -> Version {
    Version::from_number(raw::version())
}

#[cfg(test)]
mod tests {
    extern crate std;

    use std::string::ToString;

    use super::{Version, VERSION};

    #[test]
    fn the_version_is_the_packages() {
        assert_eq!(VERSION.to_string(), env!("CARGO_PKG_VERSION"));
    }

    #[test]
    fn a_number_has_three_digits_each_for_minor_and_patch() {
        for (number, text) in [(0, "0.0.0"), (1_000_000, "1.0.0"), (12_034_005, "12.34.5"), (1_999_999, "1.999.999")] {
            assert_eq!(Version::from_number(number).to_string(), text);
        }
    }
}
