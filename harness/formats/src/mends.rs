//! Calls that mend a ring (document 02, point 7) with the output lent to them, and what a call leaves there: after a refusal everything
//! as it was; after a success the kept coordinates from the front, and behind them what stood there before, without zeros.

use crate::calls::{difference_of_answers, first_difference, written_over};
use crate::{closed_length, flat, pairs, same_number, Refusal, Ring};

/// Of a mended ring, the closing one counted.
pub const FEWEST_COORDINATES: usize = 4;

/// One ring of x, y numbers to mend, and the output to write to.
#[derive(Clone, Debug)]
pub struct MendCall {
    pub ring: Vec<f64>,
    pub out: Vec<f64>,
}

/// What the call answers, minus the number for a refusal, and the output afterwards.
#[derive(Clone, Debug)]
pub struct MendAfter {
    pub answer: i64,
    pub out: Vec<f64>,
}

impl MendCall {
    /// The numbers that 22 asks of the output: those of the closed ring, however many are kept.
    pub fn room(&self) -> usize {
        2 * closed_length(&pairs(&self.ring))
    }

    pub fn after(&self, answer: &Result<Ring, Refusal>) -> MendAfter {
        match answer {
            Err(refusal) => MendAfter { answer: -i64::from(*refusal), out: self.out.clone() },
            Ok(kept) => MendAfter { answer: kept.len() as i64, out: written_over(&self.out, &flat(kept)) },
        }
    }
}

impl MendAfter {
    /// The first thing that is not the same in the other; a NaN's bits are free.
    pub fn difference(&self, other: &Self) -> Option<String> {
        difference_of_answers(self.answer, other.answer)
            .or_else(|| first_difference("output", &self.out, &other.out, same_number))
    }

    /// The numbers of the mended ring, if it was not refused and they fit the output.
    pub fn mended(&self) -> Option<&[f64]> {
        let count = usize::try_from(self.answer).ok()?;
        self.out.get(..count.checked_mul(2)?)
    }
}

#[cfg(test)]
mod tests {
    use super::*;

    fn call(ring: &[f64], out: usize) -> MendCall {
        MendCall { ring: ring.to_vec(), out: (0..out).map(|place| 7.0 + place as f64).collect() }
    }

    #[test]
    fn room_is_asked_for_the_closed_ring() {
        let room = |ring: &[f64]| call(ring, 0).room();
        assert_eq!(room(&[]), 0);
        assert_eq!(room(&[5.0, 5.0]), 2);
        assert_eq!(room(&[f64::NAN, 5.0]), 4);
        assert_eq!(room(&[1.0, 2.0, 3.0, 4.0]), 6);
        assert_eq!(room(&[0.0, 2.0, 3.0, 4.0, -0.0, 2.0]), 6);
        assert_eq!(room(&[f64::NAN, 2.0, 3.0, 4.0, f64::NAN, 2.0]), 8);
        assert_eq!(room(&[1.0, 2.0, 3.0, 4.0, 5.0]), 6, "an odd last number is no coordinate");
    }

    #[test]
    fn the_output_past_the_answer_stays() {
        let call = call(&[], 5);
        let mended = call.after(&Ok(vec![(1.0, 2.0)]));
        assert_eq!((mended.answer, &mended.out[..]), (1, &[1.0, 2.0, 9.0, 10.0, 11.0][..]));
        assert_eq!(mended.mended(), Some(&[1.0, 2.0][..]));
        let refused = call.after(&Err(26));
        assert_eq!((refused.answer, &refused.out), (-26, &call.out));
        assert_eq!(refused.mended(), None);
        for answer in [3, i64::MAX] {
            assert_eq!(MendAfter { answer, ..refused.clone() }.mended(), None, "{answer} coordinates don't fit");
        }
    }

    #[test]
    fn differences_are_named() {
        let after = |answer: i64, out: &[f64]| MendAfter { answer, out: out.to_vec() };
        let negative_nan = f64::from_bits(0xfff8_0000_0000_0001);
        assert_eq!(after(4, &[f64::NAN, 2.0]).difference(&after(4, &[negative_nan, 2.0])), None);
        let difference = |other: MendAfter| after(4, &[0.0, 2.0]).difference(&other).unwrap();
        assert_eq!(difference(after(-26, &[0.0, 2.0])), "answer, value 0: 4 and -26");
        assert_eq!(difference(after(4, &[-0.0, 2.0])), "output, value 0: 0.0 and -0.0");
        assert_eq!(difference(after(4, &[0.0])), "output: 2 values and 1");
    }
}
