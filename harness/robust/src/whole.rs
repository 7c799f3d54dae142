//! Whole numbers, as far as the exact reckoning needs them: short ones, and some of any length.

use std::cmp::Ordering;

/// What the reckoning asks of numbers.
pub trait Number: Ord + Sized {
    fn zero() -> Self;
    fn minus(&self, other: &Self) -> Self;
    fn times(&self, other: &Self) -> Self;
}

impl Number for i128 {
    fn zero() -> i128 {
        0
    }

    fn minus(&self, other: &i128) -> i128 {
        self - other
    }

    fn times(&self, other: &i128) -> i128 {
        self * other
    }
}

/// A sign and the places of 64 binary digits, the lowest first; the highest place is not 0, and 0 has none and no sign.
#[derive(Clone, Debug, PartialEq, Eq)]
pub struct Whole {
    negative: bool,
    places: Vec<u64>,
}

impl Whole {
    fn new(negative: bool, mut places: Vec<u64>) -> Whole {
        while places.last() == Some(&0) {
            places.pop();
        }
        Whole { negative: negative && !places.is_empty(), places }
    }

    /// The number times a power of two.
    pub fn shifted(number: i64, shift: u32) -> Whole {
        let magnitude = u128::from(number.unsigned_abs()) << (shift % 64);
        let mut places = vec![0; shift as usize / 64];
        places.extend([magnitude as u64, (magnitude >> 64) as u64]);
        Whole::new(number < 0, places)
    }
}

impl Number for Whole {
    fn zero() -> Whole {
        Whole::new(false, Vec::new())
    }

    fn minus(&self, other: &Whole) -> Whole {
        if self.negative != other.negative {
            return Whole::new(self.negative, sum(&self.places, &other.places));
        }
        match compare(&self.places, &other.places) {
            Ordering::Less => Whole::new(!self.negative, difference(&other.places, &self.places)),
            _ => Whole::new(self.negative, difference(&self.places, &other.places)),
        }
    }

    fn times(&self, other: &Whole) -> Whole {
        Whole::new(self.negative != other.negative, product(&self.places, &other.places))
    }
}

impl Ord for Whole {
    fn cmp(&self, other: &Whole) -> Ordering {
        match (self.negative, other.negative) {
            (false, true) => Ordering::Greater,
            (true, false) => Ordering::Less,
            (false, false) => compare(&self.places, &other.places),
            (true, true) => compare(&other.places, &self.places),
        }
    }
}

impl PartialOrd for Whole {
    fn partial_cmp(&self, other: &Whole) -> Option<Ordering> {
        Some(self.cmp(other))
    }
}

fn compare(a: &[u64], b: &[u64]) -> Ordering {
    a.len().cmp(&b.len()).then_with(|| a.iter().rev().cmp(b.iter().rev()))
}

fn place(places: &[u64], at: usize) -> u64 {
    places.get(at).copied().unwrap_or(0)
}

fn sum(a: &[u64], b: &[u64]) -> Vec<u64> {
    let mut carry = 0;
    (0..=a.len().max(b.len()))
        .map(|at| {
            let here = u128::from(place(a, at)) + u128::from(place(b, at)) + carry;
            carry = here >> 64;
            here as u64
        })
        .collect()
}

/// Of a number and one that is not larger.
fn difference(a: &[u64], b: &[u64]) -> Vec<u64> {
    let mut borrow = false;
    (0..a.len())
        .map(|at| {
            let (here, below) = a[at].overflowing_sub(place(b, at));
            let (here, below_again) = here.overflowing_sub(u64::from(borrow));
            borrow = below || below_again;
            here
        })
        .collect()
}

fn product(a: &[u64], b: &[u64]) -> Vec<u64> {
    let mut places = vec![0; a.len() + b.len()];
    for (i, &x) in a.iter().enumerate() {
        let mut carry = 0;
        for (j, &y) in b.iter().enumerate() {
            let here = u128::from(x) * u128::from(y) + u128::from(places[i + j]) + carry;
            places[i + j] = here as u64;
            carry = here >> 64;
        }
        places[i + b.len()] = carry as u64;
    }
    places
}
