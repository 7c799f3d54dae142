//! Whole numbers without a sign, of any length.

use std::cmp::Ordering;

/// The binary digits of a double's fraction.
const FRACTION: u32 = 52;

/// Places of 64 binary digits, the lowest first; the highest is not 0, and 0 has none.
#[derive(Clone, Debug, PartialEq, Eq)]
pub struct Whole {
    places: Vec<u64>,
}

impl Whole {
    pub const ZERO: Whole = Whole { places: Vec::new() };

    fn new(mut places: Vec<u64>) -> Whole {
        while places.last() == Some(&0) {
            places.pop();
        }
        Whole { places }
    }

    /// The magnitude of a finite number in units of 1/2^1074, which is whole.
    pub fn units(number: f64) -> Whole {
        assert!(number.is_finite(), "{number} has no count of units");
        let magnitude = number.abs().to_bits();
        let (exponent, fraction) = (magnitude >> FRACTION, magnitude & ((1 << FRACTION) - 1));
        // A subnormal number has no hidden digit, and the exponent of the least normal one.
        let digits = if exponent == 0 { fraction } else { fraction | 1 << FRACTION };
        Whole::from(digits).shifted(exponent.saturating_sub(1) as usize)
    }

    /// The number times a power of two.
    pub fn shifted(&self, bits: usize) -> Whole {
        let mut places = vec![0; bits / 64];
        let mut from_below = 0;
        for &place in &self.places {
            let here = u128::from(place) << (bits % 64);
            places.push(here as u64 | from_below);
            from_below = (here >> 64) as u64;
        }
        places.push(from_below);
        Whole::new(places)
    }

    pub fn plus(&self, other: &Whole) -> Whole {
        let length = self.places.len().max(other.places.len());
        let mut carry = 0;
        let sum = (0..=length).map(|at| {
            let here = u128::from(self.place(at)) + u128::from(other.place(at)) + carry;
            carry = here >> 64;
            here as u64
        });
        Whole::new(sum.collect())
    }

    /// How far apart the two are, whichever is larger.
    pub fn apart(&self, other: &Whole) -> Whole {
        let (more, less) = if self < other { (other, self) } else { (self, other) };
        let mut borrow = false;
        let difference = more.places.iter().enumerate().map(|(at, &place)| {
            let (here, under) = place.overflowing_sub(less.place(at));
            let (here, under_again) = here.overflowing_sub(u64::from(borrow));
            borrow = under || under_again;
            here
        });
        Whole::new(difference.collect())
    }

    /// Of a number in units most places are 0: those are passed over.
    pub fn times(&self, other: &Whole) -> Whole {
        let mut places = vec![0; self.places.len() + other.places.len()];
        for (at, &place) in self.places.iter().enumerate().filter(|(_, &place)| place != 0) {
            let mut carry = 0;
            for (here, &factor) in places[at..].iter_mut().zip(&other.places) {
                let product = u128::from(place) * u128::from(factor) + u128::from(*here) + carry;
                *here = product as u64;
                carry = product >> 64;
            }
            places[at + other.places.len()] = carry as u64;
        }
        Whole::new(places)
    }

    /// The first 53 binary digits as a double, and the count of those behind them; rounded up or down where these are not all 0.
    pub fn rounded(&self, up: bool) -> (f64, usize) {
        let behind = self.digits().saturating_sub(f64::MANTISSA_DIGITS as usize);
        let (whole, part) = (behind / 64, behind % 64);
        let first = self.place(whole) >> part | if part == 0 { 0 } else { self.place(whole + 1) << (64 - part) };
        let is_less =
            self.places.iter().take(whole).any(|&place| place != 0) || self.place(whole) & ((1 << part) - 1) != 0;
        ((first + u64::from(up && is_less)) as f64, behind)
    }

    /// The count of binary digits, the highest of which is not 0.
    fn digits(&self) -> usize {
        self.places.last().map_or(0, |highest| 64 * self.places.len() - highest.leading_zeros() as usize)
    }

    fn place(&self, at: usize) -> u64 {
        self.places.get(at).copied().unwrap_or(0)
    }
}

impl From<u64> for Whole {
    fn from(number: u64) -> Whole {
        Whole::new(vec![number])
    }
}

impl Ord for Whole {
    fn cmp(&self, other: &Whole) -> Ordering {
        let by_length = self.places.len().cmp(&other.places.len());
        by_length.then_with(|| self.places.iter().rev().cmp(other.places.iter().rev()))
    }
}

impl PartialOrd for Whole {
    fn partial_cmp(&self, other: &Whole) -> Option<Ordering> {
        Some(self.cmp(other))
    }
}

#[cfg(test)]
mod tests {
    use super::*;

    /// A number of two places.
    fn wide(number: u128) -> Whole {
        Whole::from((number >> 64) as u64).shifted(64).plus(&Whole::from(number as u64))
    }

    #[test]
    fn doubles_have_whole_counts_of_units() {
        let least = 5e-324;
        assert_eq!(Whole::units(0.0), Whole::ZERO);
        assert_eq!(Whole::units(-0.0), Whole::ZERO);
        assert_eq!(Whole::units(3.0 * least), Whole::from(3));
        assert_eq!(Whole::units(-3.0 * least), Whole::from(3));
        assert_eq!(Whole::units(f64::MIN_POSITIVE), Whole::from(1).shifted(52));
        assert_eq!(Whole::units(f64::MIN_POSITIVE.next_down()), Whole::from((1 << 52) - 1));
        assert_eq!(Whole::units(-2.5), Whole::from(5).shifted(1_073));
        assert_eq!(Whole::units(256.0), Whole::from(1).shifted(1_082));
        assert_eq!(Whole::units(f64::MAX).plus(&Whole::from(1).shifted(2_045)), Whole::from(1).shifted(2_098));
    }

    /// Sums, differences and products of numbers of one place, held to those of 128 binary digits.
    #[test]
    fn short_numbers_are_reckoned_rightly() {
        let numbers = [0, 1, 2, 3, 1 << 32, (1 << 32) - 1, 1 << 63, u64::MAX - 1, u64::MAX, 0x1234_5678_9abc_def0];
        for a in numbers {
            for b in numbers {
                let (x, y) = (Whole::from(a), Whole::from(b));
                assert_eq!(x.plus(&y), wide(u128::from(a) + u128::from(b)));
                assert_eq!(x.apart(&y), Whole::from(a.abs_diff(b)));
                assert_eq!(x.times(&y), wide(u128::from(a) * u128::from(b)));
                assert_eq!(x.cmp(&y), a.cmp(&b));
            }
        }
    }

    /// (2^a + 1) (2^b - 1) = 2^(a + b) + 2^b - 2^a - 1, within a place and across places.
    #[test]
    fn long_numbers_are_reckoned_rightly() {
        let (one, power) = (Whole::from(1), |bits: usize| Whole::from(1).shifted(bits));
        for a in [1, 63, 64, 65, 1_082, 2_097, 2_100] {
            for b in [1, 63, 64, 65, 1_083, 2_098, 2_100] {
                let product = power(a).plus(&one).times(&power(b).apart(&one));
                assert_eq!(product.plus(&power(a)).plus(&one), power(a + b).plus(&power(b)), "{a} {b}");
                assert_eq!(power(b).apart(&one).times(&power(a).plus(&one)), product, "{a} {b}");
                assert!(product < power(a + b).plus(&power(b)), "{a} {b}");
                assert_eq!(product.shifted(b), product.times(&power(b)), "{a} {b}");
                assert_eq!(product.shifted(a).shifted(b), product.shifted(a + b), "{a} {b}");
            }
        }
        assert_eq!(power(4_223).apart(&power(4_222)), power(4_222));
        assert!(power(64) > Whole::from(u64::MAX) && power(4_223) > power(4_222));
    }

    #[test]
    fn the_first_digits_are_rounded_down_or_up() {
        let both = |number: &Whole| (number.rounded(false), number.rounded(true));
        assert_eq!(both(&Whole::ZERO), ((0.0, 0), (0.0, 0)));
        assert_eq!(both(&Whole::from(7)), ((7.0, 0), (7.0, 0)));
        let most = (1u64 << 53) - 1;
        assert_eq!(both(&Whole::from(most)), ((most as f64, 0), (most as f64, 0)));
        assert_eq!(both(&Whole::from(most).shifted(1_000)), ((most as f64, 1_000), (most as f64, 1_000)));
        for behind in [1, 11, 12, 63, 64, 65, 75, 1_000] {
            for less in [Whole::from(1), Whole::from(1).shifted(behind - 1)] {
                let more = Whole::from(most).shifted(behind).plus(&less);
                assert_eq!(both(&more), ((most as f64, behind), ((1u64 << 53) as f64, behind)));
            }
        }
    }
}
