//! XXH3-64 of bytes that come in chunks. Here a stripe joins the accumulators
//! when the byte after it comes: until then it may be the last one, which the
//! checksum treats on its own.

use crate::refusal::Refusal;
use crate::xxh3::{accumulate, finish, scramble, xxh3_64, Accumulators, BEGINNING, MEDIUM, STRIPE};
use std::collections::VecDeque;

/// The most bytes of a sum, all chunks together.
pub const MOST: u64 = 1 << 30;

#[derive(Clone)]
pub struct Running {
    total: u64,
    /// The first bytes, as many as have a sum without accumulators.
    first: Vec<u8>,
    /// The last bytes, at most a stripe.
    last: VecDeque<u8>,
    acc: Accumulators,
}

impl Running {
    pub fn new() -> Self {
        Running {
            total: 0,
            first: Vec::new(),
            last: VecDeque::new(),
            acc: BEGINNING,
        }
    }

    /// A chunk that would pass the bound is refused and changes nothing.
    pub fn feed(&mut self, chunk: &[u8]) -> Result<(), Refusal> {
        if passes(self.total, chunk.len() as u64) {
            return Err(Refusal::at(27, 0));
        }
        chunk.iter().for_each(|&byte| self.take(byte));
        Ok(())
    }

    fn take(&mut self, byte: u8) {
        let at = self.total as usize;
        if let (stripes @ 1.., 0) = (at / STRIPE, at % STRIPE) {
            join(&mut self.acc, stripes - 1, self.last.make_contiguous());
        }
        if self.last.len() == STRIPE {
            self.last.pop_front();
        }
        self.last.push_back(byte);
        if at < MEDIUM {
            self.first.push(byte);
        }
        self.total += 1;
    }

    /// The sum of all bytes so far; more may follow.
    pub fn sum(&self) -> u64 {
        if self.total <= MEDIUM as u64 {
            return xxh3_64(&self.first);
        }
        let last: Vec<u8> = self.last.iter().copied().collect();
        finish(self.acc, &last, self.total)
    }
}

/// Is that chunk too long for a sum of so many bytes? An empty one is not, as
/// long as the bytes before it are not too many.
pub fn passes(total: u64, length: u64) -> bool {
    u128::from(total) + u128::from(length) > u128::from(MOST)
}

/// The stripe of this number, counted from 0, joins: each block of 16 goes
/// through the secret once and ends with a scramble.
fn join(acc: &mut Accumulators, number: usize, stripe: &[u8]) {
    accumulate(acc, stripe, 8 * (number % 16));
    if number % 16 == 15 {
        scramble(acc);
    }
}

/// Bytes of the library's buffer.
pub const BUFFER: usize = 256;

/// What the library keeps between chunks, and is lent by its callers.
#[derive(Clone, Debug, PartialEq, Eq)]
pub struct State {
    pub total: u64,
    pub lanes: Accumulators,
    pub buffer: [u8; BUFFER],
}

impl State {
    /// The state after these bytes: a full buffer is emptied into the lanes when
    /// the byte after it comes, and byte i lies at i modulo 256.
    pub fn after(bytes: &[u8]) -> Self {
        let emptied = bytes.len().saturating_sub(1) / BUFFER * BUFFER;
        let mut lanes = BEGINNING;
        for (number, stripe) in bytes[..emptied].chunks_exact(STRIPE).enumerate() {
            join(&mut lanes, number, stripe);
        }
        let mut buffer = [0; BUFFER];
        for (i, &byte) in bytes.iter().enumerate() {
            buffer[i % BUFFER] = byte;
        }
        State {
            total: bytes.len() as u64,
            lanes,
            buffer,
        }
    }

    /// The sum that a state stands for.
    pub fn sum(&self) -> u64 {
        let total = self.total as usize;
        if total <= BUFFER {
            return xxh3_64(&self.buffer[..total]);
        }
        // In the buffer are 1 to 256 bytes that have not joined, and behind them
        // older ones, of which the last 64 bytes of all may need some.
        let emptied = (total - 1) / BUFFER;
        let whole = (total - 1) % BUFFER / STRIPE;
        let mut lanes = self.lanes;
        for (i, stripe) in self.buffer.chunks_exact(STRIPE).take(whole).enumerate() {
            join(&mut lanes, emptied * BUFFER / STRIPE + i, stripe);
        }
        let last: Vec<u8> = (total - STRIPE..total)
            .map(|i| self.buffer[i % BUFFER])
            .collect();
        finish(lanes, &last, self.total)
    }
}
