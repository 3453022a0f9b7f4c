//! Running sums of the byte family: of two chunks, of single bytes, and of
//! chunks around the sizes of a stripe, a buffer and a block; and the states
//! between chunks.

use crate::family;
use crate::running::{Running, State};
use crate::xxh3::xxh3_64;

/// Beginnings of up to so many bytes are cut in two, at every place.
pub const CUT: usize = 600;
/// Up to so many bytes come one by one.
pub const ONE_BY_ONE: usize = 1100;
/// So many bytes come in chunks of one size, all but the last.
pub const CHUNKED: usize = 8269;

/// The sizes of these chunks: each base once, twice, three and four times.
pub fn sizes() -> impl Iterator<Item = usize> {
    let bases = || (63..=65).chain(239..=257).chain(1023..=1025);
    (1..=4).flat_map(move |times| bases().map(move |base| base * times))
}

pub fn lines() -> String {
    let family = family::bytes(CHUNKED);
    let cuts = (0..=CUT).map(|n| cut_lines(&family[..n]));
    let chunks = sizes().map(|size| chunks_line(&family, size));
    cuts.chain([byte_lines(&family[..ONE_BY_ONE])])
        .chain(chunks)
        .collect()
}

/// The sum after these chunks.
fn sum_of(chunks: &[&[u8]]) -> u64 {
    let mut running = Running::new();
    for chunk in chunks {
        feed(&mut running, chunk);
    }
    running.sum()
}

fn feed(running: &mut Running, chunk: &[u8]) {
    running.feed(chunk).expect("few bytes in all");
}

/// `cut N SUM K`: K cuts in a row give this sum, from the cut after no byte on.
/// There is one line if all cuts give the same.
fn cut_lines(bytes: &[u8]) -> String {
    let sums: Vec<u64> = (0..=bytes.len())
        .map(|cut| sum_of(&[&bytes[..cut], &bytes[cut..]]))
        .collect();
    sums.chunk_by(|a, b| a == b)
        .map(|run| format!("cut {} {:016x} {}\n", bytes.len(), run[0], run.len()))
        .collect()
}

/// `bytes N SUM`: the sum after N bytes of one by one, and before any.
fn byte_lines(bytes: &[u8]) -> String {
    let mut running = Running::new();
    let mut text = format!("bytes 0 {:016x}\n", running.sum());
    for (i, byte) in bytes.chunks(1).enumerate() {
        feed(&mut running, byte);
        text += &format!("bytes {} {:016x}\n", i + 1, running.sum());
    }
    text
}

/// `chunks SIZE SUM ASKED`: the sum in the end, and the sums after all chunks
/// xor'd. An empty chunk comes before each.
fn chunks_line(bytes: &[u8], size: usize) -> String {
    let mut running = Running::new();
    let mut asked = 0;
    for chunk in bytes.chunks(size) {
        feed(&mut running, &[]);
        feed(&mut running, chunk);
        asked ^= running.sum();
    }
    format!("chunks {size} {:016x} {asked:016x}\n", running.sum())
}

/// Around the ends of stripes, buffers and blocks.
pub fn state_lengths() -> impl Iterator<Item = usize> {
    let around = |n: usize| [n - 1, n, n + 1];
    let ends = (1..=16).map(|k| 64 * k).chain((5..=8).map(|k| 256 * k));
    [0, 1, 2].into_iter().chain(ends.flat_map(around))
}

/// `N LANES SUM`: the eight lanes after N bytes, and the sum of the buffer.
pub fn state_lines() -> String {
    let family = family::bytes(CHUNKED);
    let line = |n: usize| {
        let state = State::after(&family[..n]);
        let lanes = state.lanes.map(|lane| format!("{lane:016x}")).join(" ");
        format!("{} {lanes} {:016x}\n", state.total, xxh3_64(&state.buffer))
    };
    state_lengths().map(line).collect()
}
