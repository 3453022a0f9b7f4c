//! Checksums of beginnings of the byte family: every length through all short
//! forms and past the first block, then around each end of a stripe.

use crate::family;
use crate::xxh3::xxh3_64;

const LONGEST: usize = 65536;

fn lengths() -> impl Iterator<Item = usize> {
    let around_stripes = (18..=1024).flat_map(|k| [64 * k - 1, 64 * k, 64 * k + 1]);
    (0..=1100).chain(around_stripes.filter(|&n| n <= LONGEST))
}

pub fn lines() -> String {
    let family = family::bytes(LONGEST);
    lengths()
        .map(|n| format!("{n} {:016x}\n", xxh3_64(&family[..n])))
        .collect()
}

/// The one input of the program that prints a checksum.
pub fn sum_input() -> Vec<u8> {
    family::bytes(1000)
}

pub fn sum_line() -> String {
    format!("{:016x}\n", xxh3_64(&sum_input()))
}
