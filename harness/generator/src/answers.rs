//! Answers that nobody gave: made up field by field, at a limit, or random bytes.

use crate::harm::another_count;
use crate::numbers::any_bits;
use crate::rng::Rng;

#[derive(Clone, Copy, Debug, PartialEq, Eq)]
pub enum AnswerKind {
    /// Every field such as an answer has, or now and then another.
    MadeUp,
    /// As many parts, rings or coordinates as there may be, or one more or less.
    Limits,
    /// Random bytes, most of them low, behind a head that an answer may have.
    RandomBehindHead,
    /// Random bytes.
    Random,
}

impl AnswerKind {
    pub const ALL: [AnswerKind; 4] =
        [AnswerKind::MadeUp, AnswerKind::Limits, AnswerKind::RandomBehindHead, AnswerKind::Random];

    pub fn name(self) -> &'static str {
        match self {
            AnswerKind::MadeUp => "made up",
            AnswerKind::Limits => "limits",
            AnswerKind::RandomBehindHead => "random behind a head",
            AnswerKind::Random => "random",
        }
    }
}

/// Keeps the answers of a seed apart from its frames.
const STREAM: u64 = 220;

pub fn answer(kind: AnswerKind, seed: u64, index: u64) -> Vec<u8> {
    let rng = &mut Rng::new(seed, STREAM + kind as u64, index);
    match kind {
        AnswerKind::MadeUp => made_up(rng),
        AnswerKind::Limits => at_a_limit(rng),
        AnswerKind::RandomBehindHead => {
            let head = [rng.pick(&[0, 1, 2, 3, 3, 3, 11]), rng.below(2) as u8, 0, rng.below(4) as u8, 0];
            let low = |rng: &mut Rng| if rng.once_in(8) { rng.bits() as u8 } else { rng.below(6) as u8 };
            let rest: Vec<u8> = (0..rng.below(60)).map(|_| low(rng)).collect();
            [&head[..], &rest].concat()
        }
        AnswerKind::Random => (0..rng.below(40)).map(|_| rng.bits() as u8).collect(),
    }
}

/// An answer that grows; once in `slips` fields stands another than what is put there.
struct Writer<'a> {
    bytes: Vec<u8>,
    slips: usize,
    rng: &'a mut Rng,
}

fn made_up(rng: &mut Rng) -> Vec<u8> {
    let slips = rng.pick(&[8, 30, 1_000]);
    let mut answer = Writer { bytes: Vec::new(), slips, rng };
    answer.put_answer();
    let Writer { mut bytes, rng, .. } = answer;
    match rng.below(4 * slips) {
        0 => bytes.truncate(rng.below(bytes.len() + 1)),
        1 => bytes.extend((0..1 + rng.below(4)).map(|_| rng.bits() as u8)),
        _ => {}
    }
    bytes
}

impl Writer<'_> {
    fn put_byte(&mut self, byte: u8) {
        let slipped = self.rng.once_in(self.slips);
        self.bytes.push(if slipped { self.rng.below(30) as u8 } else { byte });
    }

    fn put_count(&mut self, count: usize) {
        let slipped = self.rng.once_in(self.slips);
        let count = if slipped { another_count(count as u16, self.rng) } else { count as u16 };
        self.bytes.extend(count.to_le_bytes());
    }

    fn put_answer(&mut self) {
        let number = self.rng.pick(&[0, 1, 2, 3, 3, 3, 3, 3, 3, 10, 18]);
        self.put_byte(number);
        let listed = if number == 3 { 1 + self.rng.below(5) } else { 0 };
        let most = 256 - listed;
        let guard_count = match number {
            0 | 3 => self.rng.pick(&[0, 0, 1, 2, most - 1, most]),
            1 => 1,
            _ => 0,
        };
        self.put_count(guard_count);
        self.put_count(listed);
        let mut next = 0;
        for _ in 0..listed {
            let number = next + self.rng.pick(&[0, 0, 1, 2, 60]);
            self.put_part(number);
            next = number + 1;
        }
    }

    fn put_part(&mut self, number: usize) {
        self.put_count(number);
        let answer = self.rng.pick(&[2, 4, 5]);
        self.put_byte(answer);
        let reason = if answer == 5 { 1 + self.rng.below(10) } else { 0 };
        self.put_byte(reason as u8);
        match answer {
            4 => self.put_rings(),
            5 => self.put_positions(reason),
            _ => {}
        }
    }

    fn put_positions(&mut self, reason: usize) {
        let first = if reason < 7 { 0 } else { self.rng.pick(&[0, 1, 255, 256, 1_608, 65_534]) };
        let second = if reason % 2 == 1 || reason < 7 { 0 } else { first + 1 + self.rng.below(65_535 - first) };
        self.put_count(first);
        self.put_count(second);
    }

    fn put_rings(&mut self) {
        let rings = 1 + self.rng.below(3);
        self.put_count(rings);
        for _ in 0..rings {
            let coordinates = if self.rng.once_in(60) { 3 } else { 4 + self.rng.below(6) };
            self.put_count(coordinates);
            for _ in 0..coordinates {
                self.put_vertex();
            }
        }
    }

    fn put_vertex(&mut self) {
        for number in [any_bits(self.rng), any_bits(self.rng)] {
            self.bytes.extend(number.to_le_bytes());
        }
        let origin = self.rng.pick(&[0, 1, 255, 256, 65_531, 65_532, 65_533, 65_534, 65_535]);
        self.bytes.extend(u16::to_le_bytes(origin));
    }
}

/// What is counted at the limit is there, or one or two less, so that a count is not told by where the bytes end.
fn at_a_limit(rng: &mut Rng) -> Vec<u8> {
    let mut answer = Writer { bytes: vec![3, 0, 0], slips: usize::MAX, rng };
    let less = answer.rng.pick(&[0, 0, 0, 1, 2]);
    match answer.rng.below(40) {
        0 => {
            let coordinates = answer.rng.pick(&[4_095, 4_096, 4_097]);
            answer.bytes.extend([1, 0, 255, 0, 4, 0, 1, 0]);
            answer.put_count(coordinates);
            answer.put_vertex();
            let vertex = answer.bytes[answer.bytes.len() - 18..].to_vec();
            answer.bytes.extend(vertex.repeat(coordinates - 1 - less));
        }
        1..20 => {
            let rings = answer.rng.pick(&[0, 1, 63, 64, 65, 256]);
            answer.bytes.extend([1, 0, 255, 0, 4, 0]);
            answer.put_count(rings);
            for _ in less..rings {
                answer.bytes.extend([4, 0]);
                (0..4).for_each(|_| answer.put_vertex());
            }
        }
        _ => {
            // Dropped parts count beside those that are listed.
            answer.bytes[1] = answer.rng.pick(&[0, 0, 0, 1]);
            let parts = answer.rng.pick(&[255, 256, 257, 300]);
            answer.put_count(parts);
            for number in 0..parts - less {
                answer.put_count(number);
                answer.bytes.extend([2, 0]);
            }
        }
    }
    answer.bytes
}
