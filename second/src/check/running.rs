//! Checks of the running sum: however the bytes are cut, its sums are those of
//! the whole.

use super::Tally;
use crate::corpus::running_vectors::{self, sizes, state_lengths, CHUNKED, CUT, ONE_BY_ONE};
use crate::family;
use crate::random::Random;
use crate::refusal::Refusal;
use crate::running::{passes, Running, State, MOST};
use crate::xxh3::xxh3_64;

pub fn check(tally: &mut Tally) {
    check_lines(tally);
    check_any_cuts(tally);
    check_bound(tally);
    check_refused(tally);
    check_states(tally);
}

/// The corpus once more, by sums of the whole: one line for each length that was
/// cut, since all cuts give one sum.
fn check_lines(tally: &mut Tally) {
    let family = family::bytes(CHUNKED);
    let sum = |n: usize| xxh3_64(&family[..n]);
    let cut = |n: usize| format!("cut {n} {:016x} {}", sum(n), n + 1);
    let one_by_one = |n: usize| format!("bytes {n} {:016x}", sum(n));
    let chunks = |size: usize| {
        let ends = (1..=CHUNKED.div_ceil(size)).map(|k| CHUNKED.min(k * size));
        let asked = ends.fold(0, |asked, end| asked ^ sum(end));
        format!("chunks {size} {:016x} {asked:016x}", sum(CHUNKED))
    };
    let expected: Vec<String> = (0..=CUT)
        .map(cut)
        .chain((0..=ONE_BY_ONE).map(one_by_one))
        .chain(sizes().map(chunks))
        .collect();
    let lines = running_vectors::lines();
    tally.same("lines of sums", lines.lines().count(), expected.len());
    for (line, expected) in lines.lines().zip(expected) {
        tally.same("running sum", line, &expected);
    }
}

/// Chunks of any lengths, empty ones too, with the sum asked after each.
fn check_any_cuts(tally: &mut Tally) {
    let mut random = Random::new(27);
    let family = family::bytes(65_536);
    for round in 0..200 {
        let mut running = Running::new();
        let mut fed = 0;
        while fed < family.len() && fed < 1 << (4 + round % 13) {
            let most = 1 << random.below(12);
            let length = random.below(most) as usize;
            let end = family.len().min(fed + length);
            tally.same("a chunk", running.feed(&family[fed..end]), Ok(()));
            fed = end;
            let what = format!("sum after {fed} bytes");
            tally.same(&what, running.sum(), xxh3_64(&family[..fed]));
        }
    }
}

/// The bound, by its numbers: exactly 2^30 bytes are lawful.
fn check_bound(tally: &mut Tally) {
    for (total, length, expected) in [
        (0, MOST, false),
        (0, MOST + 1, true),
        (MOST - 10, 10, false),
        (MOST - 10, 11, true),
        (MOST, 0, false),
        (MOST, 1, true),
        (MOST + 1, 0, true),
        (MOST, u64::MAX, true),
        (u64::MAX, 0, true),
        (u64::MAX, u64::MAX, true),
    ] {
        let what = format!("{length} bytes after {total}");
        tally.same(&what, passes(total, length), expected);
    }
}

/// A refused chunk leaves the sum, which goes on with a smaller one. No byte of
/// the large chunk is looked at.
fn check_refused(tally: &mut Tally) {
    let family = family::bytes(1_000);
    let large = vec![0; MOST as usize + 1];
    for fed in [0, 1, 240, 241, 256, 1_000] {
        let mut running = Running::new();
        let refused = Refusal::at(27, 0);
        tally.same("a chunk", running.feed(&family[..fed]), Ok(()));
        for chunk in [&large[..], &large[fed..]] {
            tally.same("a large chunk", running.feed(chunk), Err(refused));
            tally.same("after it", running.sum(), xxh3_64(&family[..fed]));
        }
        tally.same("the rest", running.feed(&family[fed..]), Ok(()));
        tally.same("all", running.sum(), xxh3_64(&family));
    }
}

/// The state between chunks stands for the sum of the bytes before it.
fn check_states(tally: &mut Tally) {
    let family = family::bytes(CHUNKED);
    for n in (0..=ONE_BY_ONE).chain(state_lengths()).chain([CHUNKED]) {
        let sum = State::after(&family[..n]).sum();
        let what = format!("sum of the state after {n} bytes");
        tally.same(&what, sum, xxh3_64(&family[..n]));
    }
}
