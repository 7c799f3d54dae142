//! Ring calls and slice calls with the slices lent to them, and what a call leaves there: after a refusal everything as it
//! was; after a success both scratch slices and order zero from end to end, and the output zero from the answer's end as far as 22
//! asks for room, whatever the answer is, and so the origins of the output. Past that both are as they were, and so is the second
//! length slice past a cut's lengths.

use std::fmt::Debug;

use crate::frame::MOST_RINGS;
use crate::origins::{numbers_of, origins_of, CutRing};
use crate::reason::Reason;
use crate::room::most_cut;
use crate::{closed_length, flat, pairs, same_number, Bounds, Refusal, Ring};

/// Of all rings of a call together: higher positions would be the numbers of lines.
pub const MOST_COORDINATES: usize = 65_532;

/// One call of the ring cutter on x, y numbers, bounds used as given.
#[derive(Clone, Debug)]
pub struct RingCall {
    pub ring: Vec<f64>,
    pub bounds: Bounds,
    pub scratch: Vec<f64>,
    pub origin_scratch: Vec<u16>,
    pub out: Vec<f64>,
    pub out_origins: Vec<u16>,
}

/// What a ring call answers, minus the number for a refusal, and the lent slices afterwards.
#[derive(Clone, Debug)]
pub struct RingAfter {
    pub answer: i64,
    pub scratch: Vec<f64>,
    pub origin_scratch: Vec<u16>,
    pub out: Vec<f64>,
    pub out_origins: Vec<u16>,
}

impl RingCall {
    /// The numbers that 21 asks of the scratch slice and 22 of the output; lengths are taken unclosed.
    pub fn room(&self) -> usize {
        2 * self.origin_room()
    }

    /// The origins that 21 asks of their scratch slice and 22 of their output.
    pub fn origin_room(&self) -> usize {
        most_cut(self.ring.len() / 2)
    }

    /// How many numbers of the output a call with that answer writes, its zeros among them; of the origins half as many.
    pub fn written(&self, answer: &Result<CutRing, Refusal>) -> usize {
        answer.as_ref().map_or(0, |_| self.room())
    }

    /// The refusal, if any.
    pub fn refusal(&self) -> Option<Refusal> {
        if self.ring.len() % 2 == 1 {
            Some(19)
        } else if self.ring.len() / 2 > MOST_COORDINATES {
            Some(20)
        } else if self.scratch.len() < self.room() || self.origin_scratch.len() < self.origin_room() {
            Some(21)
        } else if self.out.len() < self.room() || self.out_origins.len() < self.origin_room() {
            Some(22)
        } else {
            None
        }
    }

    pub fn after(&self, answer: &Result<CutRing, Refusal>) -> RingAfter {
        match answer {
            Err(refusal) => RingAfter {
                answer: -i64::from(*refusal),
                scratch: self.scratch.clone(),
                origin_scratch: self.origin_scratch.clone(),
                out: self.out.clone(),
                out_origins: self.out_origins.clone(),
            },
            Ok(cut) => RingAfter {
                answer: cut.ring.len() as i64,
                scratch: vec![0.0; self.scratch.len()],
                origin_scratch: vec![0; self.origin_scratch.len()],
                out: padded(&self.out, &flat(&cut.ring), self.room()),
                out_origins: padded(&self.out_origins, &cut.origins, self.origin_room()),
            },
        }
    }
}

impl RingAfter {
    /// The first thing that is not the same in the other; a NaN's bits are free.
    pub fn difference(&self, other: &Self) -> Option<String> {
        difference_of_answers(self.answer, other.answer)
            .or_else(|| first_difference("scratch", &self.scratch, &other.scratch, same_number))
            .or_else(|| first_difference("output", &self.out, &other.out, same_number))
            .or_else(|| first_difference("origin scratch", &self.origin_scratch, &other.origin_scratch, same_whole))
            .or_else(|| first_difference("origins", &self.out_origins, &other.out_origins, same_whole))
    }
}

/// One call on a polygon: its rings' numbers one behind the other, and their lengths in coordinates.
#[derive(Clone, Debug)]
pub struct SliceCall {
    pub assume_simple: bool,
    pub skip_boundary_fallback: bool,
    pub bounds: Bounds,
    pub buffer: f64,
    pub coords: Vec<f64>,
    pub lengths: Vec<u32>,
    pub scratch: Vec<f64>,
    pub origin_scratch: Vec<u16>,
    pub order: Vec<u32>,
    pub out: Vec<f64>,
    pub out_lengths: Vec<u32>,
    pub out_origins: Vec<u16>,
}

#[derive(Clone, Debug)]
pub enum SliceAnswer {
    Nothing,
    Dropped,
    Unchanged,
    Cut(Vec<CutRing>),
    Overlay(Reason),
}

impl SliceAnswer {
    /// The answer + 2^8 x reason + 2^16 x (a cut's rings, or an overlay's first position) + 2^40 x its second position.
    pub fn code(&self) -> i64 {
        match self {
            SliceAnswer::Nothing => 0,
            SliceAnswer::Dropped => 1,
            SliceAnswer::Unchanged => 2,
            SliceAnswer::Cut(rings) => 4 + 65_536 * rings.len() as i64,
            SliceAnswer::Overlay(reason) => 5 + reason.code(),
        }
    }

    /// The rings that a cut writes; any other answer writes none.
    pub fn cut_rings(&self) -> &[CutRing] {
        match self {
            SliceAnswer::Cut(rings) => rings,
            _ => &[],
        }
    }
}

/// What a slice call answers, minus the number for a refusal, and the lent slices afterwards.
#[derive(Clone, Debug)]
pub struct SliceAfter {
    pub answer: i64,
    pub scratch: Vec<f64>,
    pub origin_scratch: Vec<u16>,
    pub order: Vec<u32>,
    pub out: Vec<f64>,
    pub out_lengths: Vec<u32>,
    pub out_origins: Vec<u16>,
}

impl SliceCall {
    /// The lent rings, or 19 where the lengths don't fit the numbers.
    pub fn rings(&self) -> Result<Vec<Ring>, Refusal> {
        let coordinates: u64 = self.lengths.iter().map(|&length| u64::from(length)).sum();
        if self.lengths.is_empty() || self.lengths.len() > MOST_RINGS || 2 * coordinates != self.coords.len() as u64 {
            return Err(19);
        }
        let mut rest = self.coords.as_slice();
        let mut next_ring = |&length: &u32| {
            let (ring, behind) = rest.split_at(2 * length as usize);
            rest = behind;
            pairs(ring)
        };
        Ok(self.lengths.iter().map(&mut next_ring).collect())
    }

    /// The refusal 20 to 22 of rings that the lengths fit, if any; lengths are taken closed.
    pub fn refusal(&self, rings: &[Ring]) -> Option<Refusal> {
        let coordinates: usize = rings.iter().map(|ring| closed_length(ring)).sum();
        let (largest, sum) = (rooms(rings).max().unwrap_or(0), rooms(rings).sum());
        let shortest_work = [self.scratch.len() / 2, self.origin_scratch.len(), self.order.len()].into_iter().min();
        let shortest_output = (self.out.len() / 2).min(self.out_origins.len());
        if coordinates > MOST_COORDINATES {
            Some(20)
        } else if shortest_work < Some(largest) {
            Some(21)
        } else if shortest_output < sum || self.out_lengths.len() < rings.len() {
            Some(22)
        } else {
            None
        }
    }

    /// The numbers that 22 asks of the output; none where the lengths don't fit the numbers.
    pub fn room(&self) -> usize {
        2 * self.origin_room()
    }

    /// The origins that 22 asks of their output.
    pub fn origin_room(&self) -> usize {
        self.rings().map_or(0, |rings| rooms(&rings).sum())
    }

    /// How many numbers of the output a call with that answer writes, its zeros among them; of the origins half as many.
    pub fn written(&self, answer: &Result<SliceAnswer, Refusal>) -> usize {
        answer.as_ref().map_or(0, |_| self.room())
    }

    pub fn after(&self, answer: &Result<SliceAnswer, Refusal>) -> SliceAfter {
        let answer = match answer {
            Err(refusal) => return self.untouched(-i64::from(*refusal)),
            Ok(answer) => answer,
        };
        let rings = answer.cut_rings();
        let lengths: Vec<u32> = rings.iter().map(|cut| cut.ring.len() as u32).collect();
        SliceAfter {
            answer: answer.code(),
            scratch: vec![0.0; self.scratch.len()],
            origin_scratch: vec![0; self.origin_scratch.len()],
            order: vec![0; self.order.len()],
            out: padded(&self.out, &numbers_of(rings), self.room()),
            out_lengths: written_over(&self.out_lengths, &lengths),
            out_origins: padded(&self.out_origins, &origins_of(rings), self.origin_room()),
        }
    }

    fn untouched(&self, answer: i64) -> SliceAfter {
        SliceAfter {
            answer,
            scratch: self.scratch.clone(),
            origin_scratch: self.origin_scratch.clone(),
            order: self.order.clone(),
            out: self.out.clone(),
            out_lengths: self.out_lengths.clone(),
            out_origins: self.out_origins.clone(),
        }
    }
}

impl SliceAfter {
    /// The first thing that is not the same in the other; a NaN's bits are free.
    pub fn difference(&self, other: &Self) -> Option<String> {
        difference_of_answers(self.answer, other.answer)
            .or_else(|| first_difference("scratch", &self.scratch, &other.scratch, same_number))
            .or_else(|| first_difference("output", &self.out, &other.out, same_number))
            .or_else(|| first_difference("order", &self.order, &other.order, same_whole))
            .or_else(|| first_difference("lengths", &self.out_lengths, &other.out_lengths, same_whole))
            .or_else(|| first_difference("origin scratch", &self.origin_scratch, &other.origin_scratch, same_whole))
            .or_else(|| first_difference("origins", &self.out_origins, &other.out_origins, same_whole))
    }
}

/// B of each ring, closed.
fn rooms(rings: &[Ring]) -> impl Iterator<Item = usize> + '_ {
    rings.iter().map(|ring| most_cut(closed_length(ring)))
}

pub(crate) fn difference_of_answers(a: i64, b: i64) -> Option<String> {
    first_difference("answer", &[a], &[b], same_whole)
}

pub(crate) fn same_whole<T: PartialEq>(a: T, b: T) -> bool {
    a == b
}

/// Where two slices of that name first differ, and what stands there in each.
pub(crate) fn first_difference<T: Copy + Debug>(
    name: &str,
    a: &[T],
    b: &[T],
    same: fn(T, T) -> bool,
) -> Option<String> {
    if a.len() != b.len() {
        return Some(format!("{name}: {} values and {}", a.len(), b.len()));
    }
    let at = a.iter().zip(b).position(|(&a, &b)| !same(a, b))?;
    Some(format!("{name}, value {at}: {:?} and {:?}", a[at], b[at]))
}

/// A lent slice with an answer written from its front.
pub(crate) fn written_over<T: Copy>(lent: &[T], answer: &[T]) -> Vec<T> {
    [answer, &lent[answer.len()..]].concat()
}

/// A lent output with an answer written from its front and zeros from there up to `room` values.
fn padded<T: Copy + Default>(lent: &[T], answer: &[T], room: usize) -> Vec<T> {
    let mut after = lent.to_vec();
    after.iter_mut().take(room).for_each(|value| *value = T::default());
    written_over(&after, answer)
}

#[cfg(test)]
mod tests {
    use super::{RingAfter, RingCall, SliceAnswer, SliceCall};
    use crate::origins::CutRing;
    use crate::reason::Reason;

    #[test]
    fn differences_are_named() {
        let after = |answer: i64, out: &[f64]| RingAfter {
            answer,
            scratch: vec![0.0; 2],
            origin_scratch: vec![0; 2],
            out: out.to_vec(),
            out_origins: vec![3, 65_535],
        };
        let negative_nan = f64::from_bits(0xfff8_0000_0000_0001);
        assert_eq!(after(1, &[f64::NAN, 2.0]).difference(&after(1, &[negative_nan, 2.0])), None);
        let difference = |other: RingAfter| after(1, &[0.0, 2.0]).difference(&other).unwrap();
        assert_eq!(difference(after(-22, &[0.0, 2.0])), "answer, value 0: 1 and -22");
        assert_eq!(difference(after(1, &[-0.0, 2.0])), "output, value 0: 0.0 and -0.0");
        assert_eq!(difference(after(1, &[0.0])), "output: 2 values and 1");
        let other_scratch = RingAfter { scratch: vec![0.0, -0.0], ..after(1, &[0.0, 2.0]) };
        assert_eq!(difference(other_scratch), "scratch, value 1: 0.0 and -0.0");
        let other_origin_scratch = RingAfter { origin_scratch: vec![0, 1], ..after(1, &[0.0, 2.0]) };
        assert_eq!(difference(other_origin_scratch), "origin scratch, value 1: 0 and 1");
        let other_origins = RingAfter { out_origins: vec![3, 65_534], ..after(1, &[0.0, 2.0]) };
        assert_eq!(difference(other_origins), "origins, value 1: 65535 and 65534");
    }

    /// B(1) is 3, so that 22 asks for six numbers and three origins.
    #[test]
    fn a_ring_call_leaves_zeros_as_far_as_22_asks() {
        let lent: Vec<f64> = (1..=8).map(f64::from).collect();
        let lent_origins: Vec<u16> = (1..=5).collect();
        let call = RingCall {
            ring: vec![5.0, 5.0],
            bounds: [0.0; 4],
            scratch: lent.clone(),
            origin_scratch: lent_origins.clone(),
            out: lent.clone(),
            out_origins: lent_origins.clone(),
        };
        assert_eq!((call.room(), call.origin_room()), (6, 3));
        let none = call.after(&Ok(CutRing::default()));
        assert_eq!((none.answer, none.scratch, none.origin_scratch), (0, vec![0.0; 8], vec![0; 5]));
        assert_eq!(none.out, [0.0, 0.0, 0.0, 0.0, 0.0, 0.0, 7.0, 8.0]);
        assert_eq!(none.out_origins, [0, 0, 0, 4, 5]);
        let some = call.after(&Ok(CutRing { ring: vec![(9.0, 9.0); 2], origins: vec![0, 65_532] }));
        assert_eq!((some.answer, some.out), (2, vec![9.0, 9.0, 9.0, 9.0, 0.0, 0.0, 7.0, 8.0]));
        assert_eq!((some.origin_scratch, some.out_origins), (vec![0; 5], vec![0, 65_532, 0, 4, 5]));
        let refused = call.after(&Err(22));
        assert_eq!((refused.answer, refused.scratch, refused.out), (-22, lent.clone(), lent));
        assert_eq!((refused.origin_scratch, refused.out_origins), (lent_origins.clone(), lent_origins));
    }

    /// B(1) is 3: 21 and 22 ask for six numbers and three origins.
    #[test]
    fn a_ring_call_is_refused_for_each_slice_that_is_short() {
        let refusal = |[scratch, origin_scratch, out, out_origins]: [usize; 4]| {
            let (scratch, out) = (vec![7.0; scratch], vec![7.0; out]);
            let (origin_scratch, out_origins) = (vec![7; origin_scratch], vec![7; out_origins]);
            RingCall { ring: vec![5.0, 5.0], bounds: [0.0; 4], scratch, origin_scratch, out, out_origins }.refusal()
        };
        assert_eq!(refusal([6, 3, 6, 3]), None);
        assert_eq!([[5, 3, 6, 3], [6, 2, 6, 3], [6, 2, 5, 2]].map(refusal), [Some(21); 3]);
        assert_eq!([[6, 3, 5, 3], [6, 3, 6, 2], [9, 9, 5, 9], [9, 9, 9, 2]].map(refusal), [Some(22); 4]);
    }

    /// The first ring is closed by a second coordinate and the second is empty: 2 x B(2) numbers and no more. Where it is
    /// refused or not cut, the second length slice is as it was.
    #[test]
    fn a_slice_call_leaves_zeros_as_far_as_22_asks() {
        let call = SliceCall {
            assume_simple: false,
            skip_boundary_fallback: false,
            bounds: [0.0; 4],
            buffer: 0.0,
            coords: vec![f64::NAN, 5.0],
            lengths: vec![1, 0],
            scratch: vec![7.0; 22],
            origin_scratch: vec![7; 13],
            order: vec![7; 11],
            out: vec![7.0; 24],
            out_lengths: vec![7; 3],
            out_origins: vec![7; 12],
        };
        assert_eq!((call.room(), call.origin_room()), (22, 11));
        let zeros_behind = |numbers: &[f64]| [numbers, &vec![0.0; 22 - numbers.len()], &[7.0; 2]].concat();
        let zero_origins_behind = |origins: &[u16]| [origins, &vec![0; 11 - origins.len()], &[7]].concat();
        let overlay = SliceAnswer::Overlay(Reason::without_positions(2));
        for answer in [SliceAnswer::Nothing, SliceAnswer::Dropped, SliceAnswer::Unchanged, overlay] {
            let after = call.after(&Ok(answer));
            assert_eq!((after.out, after.out_lengths), (zeros_behind(&[]), vec![7; 3]));
            assert_eq!((after.scratch, after.order), (vec![0.0; 22], vec![0; 11]));
            assert_eq!((after.origin_scratch, after.out_origins), (vec![0; 13], zero_origins_behind(&[])));
        }
        let cut = vec![CutRing { ring: vec![(1.0, 2.0); 3], origins: vec![0, 65_533, 0] }];
        let cut = call.after(&Ok(SliceAnswer::Cut(cut)));
        assert_eq!((cut.out, cut.out_lengths), (zeros_behind(&[1.0, 2.0, 1.0, 2.0, 1.0, 2.0]), vec![3, 7, 7]));
        assert_eq!((cut.origin_scratch, cut.out_origins), (vec![0; 13], zero_origins_behind(&[0, 65_533, 0])));
        let refused = call.after(&Err(19));
        assert_eq!((refused.scratch, refused.out), (call.scratch.clone(), call.out.clone()));
        assert_eq!((refused.order, refused.out_lengths), (call.order.clone(), call.out_lengths.clone()));
        assert_eq!(
            (refused.origin_scratch, refused.out_origins),
            (call.origin_scratch.clone(), call.out_origins.clone())
        );
        let unfit = SliceCall { lengths: vec![2], ..call };
        assert_eq!((unfit.room(), unfit.origin_room()), (0, 0));
    }
}
