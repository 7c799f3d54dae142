//! Ring calls and slice calls with their answers as bytes, for programs that replay them. The harness's README has the form.
//! What lent slices hold before a call is not stored: every number is `MARK`, every `u32` `WHOLE_MARK`, every origin `ORIGIN_MARK`.

use crate::calls::{RingCall, SliceAnswer, SliceCall};
use crate::origins::{numbers_of, origins_of, CutRing};
use crate::reason::Reason;
use crate::{pairs, Bounds, Refusal};

pub const MARK: f64 = 7.25;
pub const WHOLE_MARK: u32 = 77;
pub const ORIGIN_MARK: u16 = 777;

/// The answer of a cut, in the lowest byte of its code.
const CUT: i64 = 4;

/// The longest slice to write to that a program which replays has room for.
pub const MOST_LENT: usize = 4_096;

pub type RingVector = (RingCall, Result<CutRing, Refusal>);
pub type SliceVector = (SliceCall, Result<SliceAnswer, Refusal>);

/// A file of ring calls: their count, then each.
pub fn encode_rings(vectors: &[RingVector]) -> Vec<u8> {
    let mut bytes = Writer::new(vectors.len());
    for (call, answer) in vectors {
        bytes.wholes(&[call.scratch.len(), call.origin_scratch.len(), call.out.len(), call.out_origins.len()]);
        bytes.numbers(&call.bounds);
        bytes.lent(&call.ring);
        bytes.code(&answer.as_ref().map(|cut| cut.ring.len() as i64));
        bytes.wholes(&[call.written(answer)]);
        bytes.rings(answer.as_ref().map_or(&[], std::slice::from_ref));
    }
    bytes.0
}

/// The ring calls of a file, each with the count of numbers that the file says are written.
pub fn decode_rings(bytes: &[u8]) -> Vec<(RingVector, usize)> {
    let mut bytes = Reader { rest: bytes };
    let vector = |bytes: &mut Reader| {
        let [scratch, origin_scratch, out, out_origins] = bytes.wholes();
        let bounds = bytes.bounds();
        let call = RingCall {
            ring: bytes.lent(),
            bounds,
            scratch: marks(scratch),
            origin_scratch: origin_marks(origin_scratch),
            out: marks(out),
            out_origins: origin_marks(out_origins),
        };
        let code = bytes.code();
        let [written] = bytes.wholes();
        let answer = code.map(|count| bytes.rings(&[count as usize]).remove(0));
        ((call, answer), written)
    };
    bytes.all(vector)
}

/// A file of slice calls: their count, then each.
pub fn encode_slices(vectors: &[SliceVector]) -> Vec<u8> {
    let mut bytes = Writer::new(vectors.len());
    for (call, answer) in vectors {
        let flags = usize::from(call.assume_simple) + 2 * usize::from(call.skip_boundary_fallback);
        bytes.wholes(&[flags, call.scratch.len(), call.origin_scratch.len(), call.order.len()]);
        bytes.wholes(&[call.out.len(), call.out_lengths.len(), call.out_origins.len()]);
        bytes.numbers(&call.bounds);
        bytes.numbers(&[call.buffer]);
        bytes.wholes(&[call.lengths.len()]);
        call.lengths.iter().for_each(|&length| bytes.wholes(&[length as usize]));
        bytes.lent(&call.coords);
        bytes.code(&answer.as_ref().map(SliceAnswer::code));
        let rings = answer.as_ref().map_or(&[][..], SliceAnswer::cut_rings);
        rings.iter().for_each(|cut| bytes.wholes(&[cut.ring.len()]));
        bytes.wholes(&[call.written(answer)]);
        bytes.rings(rings);
    }
    bytes.0
}

/// The slice calls of a file, each with the count of numbers that the file says are written.
pub fn decode_slices(bytes: &[u8]) -> Vec<(SliceVector, usize)> {
    let mut bytes = Reader { rest: bytes };
    let vector = |bytes: &mut Reader| {
        let [flags, scratch, origin_scratch, order, out, out_lengths, out_origins] = bytes.wholes();
        let (bounds, buffer) = (bytes.bounds(), bytes.number());
        let [rings] = bytes.wholes();
        let lengths = (0..rings).map(|_| bytes.whole()).collect();
        let call = SliceCall {
            assume_simple: flags & 1 != 0,
            skip_boundary_fallback: flags & 2 != 0,
            bounds,
            buffer,
            lengths,
            coords: bytes.lent(),
            scratch: marks(scratch),
            origin_scratch: origin_marks(origin_scratch),
            order: whole_marks(order),
            out: marks(out),
            out_lengths: whole_marks(out_lengths),
            out_origins: origin_marks(out_origins),
        };
        let code = bytes.code();
        let lengths = bytes.cut_lengths(&code);
        let [written] = bytes.wholes();
        let answer = code.map(|code| bytes.slice_answer(code, &lengths));
        ((call, answer), written)
    };
    bytes.all(vector)
}

pub fn marks(length: usize) -> Vec<f64> {
    vec![MARK; length]
}

pub fn whole_marks(length: usize) -> Vec<u32> {
    vec![WHOLE_MARK; length]
}

pub fn origin_marks(length: usize) -> Vec<u16> {
    vec![ORIGIN_MARK; length]
}

struct Writer(Vec<u8>);

impl Writer {
    fn new(vectors: usize) -> Writer {
        let mut bytes = Writer(Vec::new());
        bytes.wholes(&[vectors]);
        bytes
    }

    fn wholes(&mut self, wholes: &[usize]) {
        self.0.extend(wholes.iter().flat_map(|&whole| (whole as u32).to_le_bytes()));
    }

    fn numbers(&mut self, numbers: &[f64]) {
        self.0.extend(numbers.iter().flat_map(|number| number.to_le_bytes()));
    }

    /// The numbers of these rings, and then their origins.
    fn rings(&mut self, rings: &[CutRing]) {
        self.numbers(&numbers_of(rings));
        self.0.extend(origins_of(rings).iter().flat_map(|origin| origin.to_le_bytes()));
    }

    /// How many numbers, how many of them are stored, and these: the zeros at the end are not.
    fn lent(&mut self, numbers: &[f64]) {
        let stored = numbers.iter().rposition(|number| number.to_bits() != 0).map_or(0, |last| last + 1);
        self.wholes(&[numbers.len(), stored]);
        self.numbers(&numbers[..stored]);
    }

    fn code(&mut self, answer: &Result<i64, &Refusal>) {
        let code = answer.unwrap_or_else(|refusal| -i64::from(*refusal));
        self.0.extend(code.to_le_bytes());
    }
}

struct Reader<'a> {
    rest: &'a [u8],
}

impl Reader<'_> {
    fn all<T>(&mut self, mut vector: impl FnMut(&mut Self) -> T) -> Vec<T> {
        let [count] = self.wholes();
        let vectors = (0..count).map(|_| vector(self)).collect();
        assert!(self.rest.is_empty(), "{} bytes follow the last vector", self.rest.len());
        vectors
    }

    fn take<const N: usize>(&mut self) -> [u8; N] {
        let (taken, rest) = self.rest.split_first_chunk().expect("the vectors are whole");
        self.rest = rest;
        *taken
    }

    fn whole(&mut self) -> u32 {
        u32::from_le_bytes(self.take())
    }

    fn wholes<const N: usize>(&mut self) -> [usize; N] {
        [(); N].map(|()| self.whole() as usize)
    }

    fn number(&mut self) -> f64 {
        f64::from_le_bytes(self.take())
    }

    fn numbers(&mut self, count: usize) -> Vec<f64> {
        (0..count).map(|_| self.number()).collect()
    }

    /// Rings of these lengths: the numbers of all of them, and then their origins.
    fn rings(&mut self, lengths: &[usize]) -> Vec<CutRing> {
        let rings: Vec<_> = lengths.iter().map(|&length| pairs(&self.numbers(2 * length))).collect();
        let mut origins = |length: usize| (0..length).map(|_| u16::from_le_bytes(self.take())).collect();
        rings.into_iter().map(|ring| CutRing { origins: origins(ring.len()), ring }).collect()
    }

    fn bounds(&mut self) -> Bounds {
        [(); 4].map(|()| self.number())
    }

    fn lent(&mut self) -> Vec<f64> {
        let [count, stored] = self.wholes();
        let mut numbers = self.numbers(stored);
        numbers.resize(count, 0.0);
        numbers
    }

    fn code(&mut self) -> Result<i64, Refusal> {
        let code = i64::from_le_bytes(self.take());
        if code < 0 {
            Err(-code as Refusal)
        } else {
            Ok(code)
        }
    }

    /// The length of each ring of a cut; any other answer has none.
    fn cut_lengths(&mut self, code: &Result<i64, Refusal>) -> Vec<usize> {
        let rings = code.map_or(0, |code| if code & 0xff == CUT { code >> 16 } else { 0 });
        (0..rings).map(|_| self.whole() as usize).collect()
    }

    fn slice_answer(&mut self, code: i64, lengths: &[usize]) -> SliceAnswer {
        match code & 0xff {
            0 => SliceAnswer::Nothing,
            1 => SliceAnswer::Dropped,
            2 => SliceAnswer::Unchanged,
            CUT => SliceAnswer::Cut(self.rings(lengths)),
            _ => SliceAnswer::Overlay(Reason::of_code(code)),
        }
    }
}

#[cfg(test)]
mod tests {
    use super::*;

    fn whole_at(bytes: &[u8], at: usize) -> u32 {
        u32::from_le_bytes(bytes[at..at + 4].try_into().unwrap())
    }

    fn number_at(bytes: &[u8], at: usize) -> f64 {
        f64::from_le_bytes(bytes[at..at + 8].try_into().unwrap())
    }

    fn origin_at(bytes: &[u8], at: usize) -> u16 {
        u16::from_le_bytes(bytes[at..at + 2].try_into().unwrap())
    }

    /// The places of what a program that replays reads, byte by byte: the count of calls, a head of 56 bytes, the numbers
    /// lent, the code, how many numbers are written, and the answer's own numbers and origins.
    #[test]
    fn a_ring_call_stands_in_its_places() {
        let call = RingCall {
            ring: vec![1.0, 2.0, 0.0, 0.0],
            bounds: [3.0, 4.0, 5.0, 6.0],
            scratch: marks(22),
            origin_scratch: origin_marks(12),
            out: marks(23),
            out_origins: origin_marks(11),
        };
        let cut = CutRing { ring: vec![(8.0, 9.0)], origins: vec![65_534] };
        let vectors = [(call.clone(), Ok(cut)), (call, Err(21))];
        let bytes = encode_rings(&vectors);
        assert_eq!([0, 4, 8, 12, 16, 52, 56].map(|at| whole_at(&bytes, at)), [2, 22, 12, 23, 11, 4, 2]);
        assert_eq!([20, 28, 36, 44].map(|at| number_at(&bytes, at)), [3.0, 4.0, 5.0, 6.0]);
        assert_eq!([60, 68].map(|at| number_at(&bytes, at)), [1.0, 2.0]);
        // One coordinate, and of the output 22 numbers are written.
        assert_eq!([76, 80, 84].map(|at| whole_at(&bytes, at)), [1, 0, 22]);
        assert_eq!([88, 96].map(|at| number_at(&bytes, at)), [8.0, 9.0]);
        assert_eq!(origin_at(&bytes, 104), 65_534);
        // A refusal writes none.
        let refused = &bytes[106..];
        assert_eq!(refused[72..80], (-21_i64).to_le_bytes());
        assert_eq!((whole_at(refused, 80), refused.len()), (0, 84));
        let decoded = decode_rings(&bytes);
        assert_eq!(decoded.iter().map(|(_, written)| *written).collect::<Vec<_>>(), [22, 0]);
        let again: Vec<RingVector> = decoded.into_iter().map(|(vector, _)| vector).collect();
        assert_eq!(encode_rings(&again), bytes);
    }

    /// So with a slice call: a head of 72 bytes, the lengths, the numbers, the code, a cut's lengths, how many numbers are
    /// written, and the cut's own numbers and then its origins, ring by ring.
    #[test]
    fn a_slice_call_stands_in_its_places() {
        let call = SliceCall {
            assume_simple: false,
            skip_boundary_fallback: true,
            bounds: [3.0, 4.0, 5.0, 6.0],
            buffer: 7.0,
            coords: vec![1.0, 2.0],
            lengths: vec![1, 0],
            scratch: marks(6),
            origin_scratch: origin_marks(4),
            order: whole_marks(3),
            out: marks(8),
            out_lengths: whole_marks(2),
            out_origins: origin_marks(5),
        };
        let cut = [(8.0, 0), (9.0, 65_535)].map(|(x, origin)| CutRing { ring: vec![(x, -x)], origins: vec![origin] });
        let crossing = Reason { number: 8, first: 1, second: 3 };
        let answers = [SliceAnswer::Cut(cut.to_vec()), SliceAnswer::Dropped, SliceAnswer::Overlay(crossing)].map(Ok);
        let answers = answers.into_iter().chain([Err(22)]);
        let vectors: Vec<SliceVector> = answers.map(|answer| (call.clone(), answer)).collect();
        let bytes = encode_slices(&vectors);
        assert_eq!([0, 4, 8, 12, 16, 20, 24, 28].map(|at| whole_at(&bytes, at)), [4, 2, 6, 4, 3, 8, 2, 5]);
        assert_eq!([32, 40, 48, 56, 64].map(|at| number_at(&bytes, at)), [3.0, 4.0, 5.0, 6.0, 7.0]);
        assert_eq!([72, 76, 80, 84, 88].map(|at| whole_at(&bytes, at)), [2, 1, 0, 2, 2]);
        assert_eq!([92, 100].map(|at| number_at(&bytes, at)), [1.0, 2.0]);
        // Cut to two rings of one coordinate, and of the output six numbers are written.
        assert_eq!([108, 112, 116, 120, 124].map(|at| whole_at(&bytes, at)), [4 + 2 * 65_536, 0, 1, 1, 6]);
        assert_eq!([128, 136, 144, 152].map(|at| number_at(&bytes, at)), [8.0, -8.0, 9.0, -9.0]);
        assert_eq!([160, 162].map(|at| origin_at(&bytes, at)), [0, 65_535]);
        // Dropped writes as many, all zeros, and so does an overlay, whose positions are in its code; a refusal writes none.
        let dropped = &bytes[164..];
        assert_eq!([104, 108, 112].map(|at| whole_at(dropped, at)), [1, 0, 6]);
        let overlay = &dropped[116..];
        assert_eq!([104, 108, 112].map(|at| whole_at(overlay, at)), [5 + 8 * 256 + 65_536, 3 * 256, 6]);
        let refused = &overlay[116..];
        assert_eq!(refused[104..112], (-22_i64).to_le_bytes());
        assert_eq!((whole_at(refused, 112), refused.len()), (0, 116));
        let decoded = decode_slices(&bytes);
        assert_eq!(decoded.iter().map(|(_, written)| *written).collect::<Vec<_>>(), [6, 6, 6, 0]);
        let again: Vec<SliceVector> = decoded.into_iter().map(|(vector, _)| vector).collect();
        assert_eq!(encode_slices(&again), bytes);
    }
}
