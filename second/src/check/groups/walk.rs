//! The fault of a group by another way than the reader's.

use super::{DEGREE_ZERO, SPARE_BYTES};

/// The number and byte of a group's fault: byte by byte, with what each byte may
/// belong to.
pub fn step_by_step(group: &[u8]) -> Option<(u8, u64)> {
    let mut walk = Walk {
        at: 0,
        begin: 0,
        step: Step::Degree,
        bytes: Vec::new(),
        left: 0,
        upper: 0,
        last: None,
    };
    for &byte in group {
        walk.at += 1;
        walk.bytes.push(byte);
        if let Some(number) = walk.take() {
            return Some((number, walk.begin));
        }
    }
    let number = match walk.step {
        Step::End => return None,
        Step::Degree | Step::Upper => 33,
        Step::Tag | Step::Dense | Step::Lower => 31,
    };
    Some((number, walk.begin))
}

/// What a byte of a group belongs to.
#[derive(Clone, Copy, PartialEq, Eq)]
enum Step {
    Degree,
    Tag,
    Dense,
    Upper,
    Lower,
    End,
}

struct Walk {
    /// The bytes that were taken.
    at: u64,
    /// Where the degree, the tag, the partner or the rest begins.
    begin: u64,
    step: Step,
    /// The bytes of this step so far.
    bytes: Vec<u8>,
    /// The partners still to come.
    left: u128,
    upper: u128,
    last: Option<u128>,
}

impl Walk {
    /// What is wrong by the byte that came last, if anything is.
    fn take(&mut self) -> Option<u8> {
        match self.step {
            Step::Degree | Step::Upper => self.varint(),
            Step::Tag => match self.bytes[..] {
                [0x01] => self.next(Step::Upper),
                [0x10] => self.next(Step::Dense),
                _ => Some(16),
            },
            Step::Dense if self.bytes.len() == 16 => {
                let partner = self.bytes.iter().fold(0, |n, &b| n << 8 | u128::from(b));
                self.partner(partner)
            }
            Step::Lower if self.bytes.len() == 8 => {
                let lower = self.bytes.iter().rev();
                let lower = lower.fold(0, |n, &b| n << 8 | u128::from(b));
                self.partner(self.upper << 64 | lower)
            }
            Step::Dense | Step::Lower => None,
            Step::End => Some(SPARE_BYTES),
        }
    }

    fn varint(&mut self) -> Option<u8> {
        let (count, byte) = (self.bytes.len(), self.bytes[self.bytes.len() - 1]);
        match byte {
            2.. if count == 10 => Some(35),
            0 if count > 1 => Some(34),
            128.. => None,
            _ => {
                let sevens = self.bytes.iter().rev();
                self.number(sevens.fold(0, |n, &b| n << 7 | u128::from(b & 0x7F)))
            }
        }
    }

    fn number(&mut self, number: u128) -> Option<u8> {
        if self.step == Step::Degree {
            self.left = number;
            return match number {
                0 => Some(DEGREE_ZERO),
                _ => self.next(Step::Tag),
            };
        }
        self.upper += number;
        match self.upper >> 64 {
            0 => self.next(Step::Lower),
            _ => Some(30),
        }
    }

    fn partner(&mut self, partner: u128) -> Option<u8> {
        if self.last >= Some(partner) {
            return Some(29);
        }
        self.last = Some(partner);
        self.left -= 1;
        match (self.left, self.step) {
            (0, _) => self.next(Step::End),
            (_, Step::Dense) => self.next(Step::Dense),
            _ => self.next(Step::Upper),
        }
    }

    /// A lower half goes on with the partner that its upper half began.
    fn next(&mut self, step: Step) -> Option<u8> {
        if step != Step::Lower {
            self.begin = self.at;
        }
        self.step = step;
        self.bytes.clear();
        None
    }
}
