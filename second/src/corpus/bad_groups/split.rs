//! Split groups with one fault. After a degree of one byte and the tag, and
//! with upper halves of one byte, the partners begin at 2, 11 and 20, and a
//! fourth would at 29. What is wrong with a partner is told at its first byte,
//! which is that of its upper half.

use super::BadGroups;
use crate::corpus::lookup_calls::raw::{halves, SPLIT};
use crate::numbers::id_of;

/// A varint of a number above 2^64.
pub const TOO_LARGE: &[u8] = b"\xFF\xFF\xFF\xFF\xFF\xFF\xFF\xFF\xFF\x02";

pub fn add(bad: &mut BadGroups) {
    one_partner(bad);
    each_partner(bad);
    lower_halves(bad);
    overlong(bad);
    order(bad);
    passing(bad);
    degrees(bad);
}

/// The only partner is cut, or its upper half is no varint.
fn one_partner(bad: &mut BadGroups) {
    let mut add = |name: &str, bytes: &[u8], number: u8| {
        bad.of(format!("split-{name}"), 1, &[SPLIT, bytes], number, 2);
    };
    add("nothing", &[], 33);
    add("upper-cut", &[0x80], 33);
    add("upper-cut-after-9", &[0xFF; 9], 33);
    add("upper-long", &[0x85, 0x00, 1, 1, 1, 1, 1, 1, 1, 1], 34);
    add("upper-large", &[TOO_LARGE, &[1; 8]].concat(), 35);
    add("upper-without-end", &[0x80; 18], 35);
    add("lower-missing", &[5], 31);
    add("lower-one-byte", &[5, 1], 31);
    add("lower-cut-by-1", &[5, 1, 0, 0, 0, 0, 0, 0], 31);
}

/// The same of the first, a middle and the last partner, with nothing after it
/// or with right partners.
fn each_partner(bad: &mut BadGroups) {
    let (a, b, c) = (halves(5, 1), halves(1, 0), halves(0, 9));
    for (which, degree, before, after, byte) in [
        ("first-of-3", 3, vec![], [&b[..], &c].concat(), 2),
        ("second-of-2", 2, a.clone(), vec![], 11),
        ("second-of-3", 3, a.clone(), c.clone(), 11),
        ("third-of-3", 3, [&a[..], &b].concat(), vec![], 20),
    ] {
        let mut add = |word: &str, bytes: &[u8], after: &[u8], number: u8| {
            let name = format!("split-{which}-{word}");
            let rest = &[SPLIT, &before, bytes, after];
            bad.of(name, degree, rest, number, byte);
        };
        add("missing", &[], &[], 33);
        add("upper-cut", &[0x81], &[], 33);
        add("upper-cut-after-9", &[0x80; 9], &[], 33);
        add("long", &[0x81, 0x00, 1, 1, 1, 1, 1, 1, 1, 1], &after, 34);
        add("long-alone", &[0xFF, 0x80, 0x00], &[], 34);
        add("large", &[TOO_LARGE, &[1; 8]].concat(), &after, 35);
        add("large-alone", TOO_LARGE, &[], 35);
        add("lower-missing", &[1], &[], 31);
        add("lower-cut", &[1; 8], &[], 31);
    }
}

/// A lower half is cut after an upper one of two or ten bytes.
fn lower_halves(bad: &mut BadGroups) {
    let (two, ten) = (&halves(300, 1)[..], &halves(u64::MAX, 1)[..]);
    let a = &halves(0, 1)[..];
    for (word, left) in [("missing", 0), ("one-byte", 1), ("cut-by-1", 7)] {
        let (two, ten) = (&two[..2 + left], &ten[..10 + left]);
        let name = |upper: &str| format!("split-upper-of-{upper}-lower-{word}");
        bad.of(name("2"), 1, &[SPLIT, two], 31, 2);
        bad.of(name("10"), 1, &[SPLIT, ten], 31, 2);
        bad.of(name("10-second"), 2, &[SPLIT, a, ten], 31, 11);
    }
}

/// More follows after the last partner.
fn overlong(bad: &mut BadGroups) {
    let a = &halves(5, 1)[..];
    let b = &halves(1, 1)[..];
    bad.of("split-overlong-by-1", 1, &[SPLIT, a, &[0]], 32, 11);
    bad.of("split-overlong-open", 1, &[SPLIT, a, &[0x80]], 32, 11);
    bad.of("split-overlong-partner", 1, &[SPLIT, a, b], 32, 11);
    bad.of("split-overlong-by-300", 1, &[SPLIT, a, &[9; 300]], 32, 11);
    bad.of("split-of-2-overlong", 2, &[SPLIT, a, b, &[0; 2]], 32, 20);
    bad.of("split-of-3-overlong", 3, &[SPLIT, a, b, b, b], 32, 29);
    // Nine of the sixteen bytes are a partner.
    bad.of("split-holds-dense", 1, &[SPLIT, &id_of(5, 1)], 32, 11);
}

impl BadGroups {
    /// A split group of these partners, by the difference of the upper half and
    /// the lower half. It is whole.
    fn split(&mut self, name: &str, partners: &[(u64, u64)], number: u8, byte: u64) {
        let degree = partners.len() as u64;
        let partners: Vec<u8> = partners.iter().flat_map(|&(u, l)| halves(u, l)).collect();
        let name = format!("split-{name}");
        self.of(name, degree, &[SPLIT, &partners], number, byte);
    }
}

/// A partner is not above the one before it.
fn order(bad: &mut BadGroups) {
    // The marked case of lower halves 2 and 2 is the first of these.
    bad.split("equal", &[(5, 2), (0, 2)], 29, 11);
    bad.split("falls", &[(5, 2), (0, 1)], 29, 11);
    bad.split("zeros", &[(0, 0), (0, 0)], 29, 11);
    bad.split("rises-as-big-endian", &[(5, 1 << 56), (0, 2)], 29, 11);
    bad.split("rises-as-signed", &[(5, 1 << 63), (0, 1)], 29, 11);
    bad.split("second-equal", &[(5, 2), (0, 2), (0, 3)], 29, 11);
    bad.split("second-falls", &[(5, 2), (0, 1), (1, 0)], 29, 11);
    bad.split("third-equal", &[(5, 2), (1, 1), (0, 1)], 29, 20);
    bad.split("third-falls", &[(5, 2), (1, 9), (0, 3)], 29, 20);
    // Upper halves of two and of ten bytes before it.
    bad.split("falls-after-2", &[(300, 2), (0, 1)], 29, 12);
    bad.split("falls-after-10", &[(u64::MAX, 2), (0, 1)], 29, 20);
}

/// An upper half passes 2^64 - 1.
fn passing(bad: &mut BadGroups) {
    let most = u64::MAX;
    bad.split("passes-by-1", &[(most, 1), (1, 2)], 30, 20);
    bad.split("passes-to-0", &[(1 << 63, 1), (1 << 63, 2)], 30, 20);
    bad.split("passes-to-itself", &[(1, 1), (most, 2)], 30, 11);
    bad.split("passes-twice-most", &[(most, 1), (most, 2)], 30, 20);
    bad.split("passes-by-sum", &[(1 << 62, 1), (3 << 62, 2)], 30, 19);
    bad.split("passes-at-second", &[(1, 1), (most, 2), (0, 3)], 30, 11);
    let third = [(1 << 63, 1), (1 << 62, 2), (1 << 62, 3)];
    bad.split("passes-at-third", &third, 30, 37);
    bad.split("third-passes", &[(1, 1), (1, 0), (most, 2)], 30, 20);
    // It is told before the lower half is read.
    let first = &halves(1, 1)[..];
    let passes = &halves(most, 2)[..];
    for (word, left) in [("missing", 0), ("one-byte", 1), ("cut-by-1", 7)] {
        let passes = &passes[..10 + left];
        let name = format!("split-passes-lower-{word}");
        bad.of(name, 2, &[SPLIT, first, passes], 30, 11);
        let name = format!("split-third-passes-lower-{word}");
        let rest = &[SPLIT, first, &halves(0, 2), passes];
        bad.of(name, 3, rest, 30, 20);
    }
}

/// The bytes run out where the next varint would begin, however many partners
/// are still to come.
fn degrees(bad: &mut BadGroups) {
    let a = &halves(5, 1)[..];
    for (word, degree, second) in [
        ("2-to-31", 1 << 31, 15),
        ("2-to-63", 1 << 63, 20),
        ("most-but-1", u64::MAX - 1, 20),
    ] {
        let name = format!("split-degree-{word}");
        bad.of(name, degree, &[SPLIT, a], 33, second);
        let name = format!("split-degree-{word}-lower-cut");
        bad.of(name, degree, &[SPLIT, a, &[1; 4]], 31, second);
    }
}
