//! Degrees of two, five and ten bytes, far above what the bytes hold: every
//! place lies so much later.

use super::split::TOO_LARGE;
use super::BadGroups;
use crate::corpus::lookup_calls::raw::{halves, DENSE, SPLIT};
use crate::numbers::id_of;

pub fn add(bad: &mut BadGroups) {
    // Each degree with the place of its first partner, after the tag.
    for (word, degree, first) in [
        ("128", 128, 3),
        ("2-to-32", 1 << 32, 6),
        ("most", u64::MAX, 11),
    ] {
        split(bad, word, degree, first);
        dense(bad, word, degree, first);
    }
}

/// The second partner begins nine bytes after the first, the third eighteen.
fn split(bad: &mut BadGroups, word: &str, degree: u64, first: u64) {
    let (a, b) = (&halves(5, 1)[..], &halves(1, 2)[..]);
    let passes = &halves(u64::MAX, 3)[..];
    let mut add = |what: &str, partners: &[&[u8]], number: u8, byte: u64| {
        let name = format!("split-{word}-{what}");
        bad.of(name, degree, &[SPLIT, &partners.concat()], number, byte);
    };
    add("missing", &[], 33, first);
    add("upper-cut", &[&[0x80]], 33, first);
    add("long", &[&[0x85, 0x00], &[1; 8]], 34, first);
    add("large", &[TOO_LARGE, &[1; 8]], 35, first);
    add("lower-cut", &[&a[..8]], 31, first);
    add("second-missing", &[a], 33, first + 9);
    add("second-lower-cut", &[a, &[1; 4]], 31, first + 9);
    add("second-long", &[a, &[0x81, 0x00], &[1; 8]], 34, first + 9);
    add("second-large", &[a, TOO_LARGE, &[1; 8]], 35, first + 9);
    add("second-equal", &[a, &halves(0, 1)], 29, first + 9);
    add("second-passes", &[a, passes], 30, first + 9);
    add("third-falls", &[a, b, &halves(0, 1)], 29, first + 18);
    add("third-passes", &[a, b, passes], 30, first + 18);
}

/// The second partner begins 16 bytes after the first, the third 32.
fn dense(bad: &mut BadGroups, word: &str, degree: u64, first: u64) {
    let (a, b, c) = (&id_of(5, 1)[..], &id_of(5, 2)[..], &id_of(6, 0)[..]);
    let mut add = |what: &str, partners: &[&[u8]], number: u8, byte: u64| {
        let name = format!("dense-{word}-{what}");
        bad.of(name, degree, &[DENSE, &partners.concat()], number, byte);
    };
    add("missing", &[], 31, first);
    add("cut", &[&a[..15]], 31, first);
    add("second-missing", &[a], 31, first + 16);
    add("second-cut", &[a, &b[..1]], 31, first + 16);
    add("second-equal", &[a, a], 29, first + 16);
    add("third-falls", &[a, c, b], 29, first + 32);
    add("third-missing", &[a, b], 31, first + 32);
}
