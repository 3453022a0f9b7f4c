//! Nine bytes `80` and a tenth, as a degree and as the upper half of the first,
//! a middle and the last partner, with more after it and with nothing. A tenth
//! byte of 0 makes a varint that is not the shortest; one above 1, its top bit
//! counted, a varint that is too large, whatever follows; and 1 makes 2^63.

use super::BadGroups;
use crate::corpus::lookup_calls::raw::{halves, DENSE, SPLIT};
use crate::numbers::id_of;

pub fn add(bad: &mut BadGroups) {
    for (tenth, number) in [
        (0x00, 34),
        (0x02, 35),
        (0x7F, 35),
        (0x80, 35),
        (0x81, 35),
        (0xFF, 35),
    ] {
        no_number(bad, tenth, number);
    }
    two_to_63(bad);
}

fn nine_and(tenth: u8) -> Vec<u8> {
    [&[0x80; 9][..], &[tenth]].concat()
}

/// The tenth byte is told at the first of the ten.
fn no_number(bad: &mut BadGroups, tenth: u8, number: u8) {
    let varint = &nine_and(tenth)[..];
    let (a, b, c) = (&halves(5, 1)[..], &halves(1, 0)[..], &halves(0, 9)[..]);
    let name = |what: &str| format!("{what}-nine-80-{tenth:02x}");
    let alone = |what: &str| format!("{what}-nine-80-{tenth:02x}-alone");
    bad.raw(alone("degree"), &[varint], number);
    bad.raw(name("degree"), &[varint, SPLIT, a], number);
    for (what, before, after, byte) in [
        ("first", &[][..], &[b, c].concat()[..], 2),
        ("second", a, c, 11),
        ("third", &[a, b].concat(), &[], 20),
    ] {
        let rest = &[SPLIT, before, varint];
        bad.of(alone(what), 3, rest, number, byte);
        let rest = &[SPLIT, before, varint, &[1; 8], after];
        bad.of(name(what), 3, rest, number, byte);
    }
}

/// The varint is right: the group is refused for what comes after it.
fn two_to_63(bad: &mut BadGroups) {
    let varint = &nine_and(0x01)[..];
    let (a, b) = (&halves(5, 1)[..], &halves(1, 0)[..]);
    let whole = &[varint, &[1; 8]].concat()[..];
    let degree = 1 << 63;
    bad.of("degree-nine-80-01-alone", degree, &[], 31, 10);
    bad.of("degree-nine-80-01", degree, &[SPLIT, a], 33, 20);
    let dense = &[DENSE, &id_of(5, 1)];
    bad.of("degree-nine-80-01-dense", degree, dense, 31, 27);
    bad.of("first-nine-80-01-alone", 3, &[SPLIT, varint], 31, 2);
    bad.of("first-nine-80-01", 3, &[SPLIT, whole], 33, 20);
    bad.of("second-nine-80-01-alone", 3, &[SPLIT, a, varint], 31, 11);
    bad.of("second-nine-80-01", 3, &[SPLIT, a, whole], 33, 29);
    bad.of("third-nine-80-01-alone", 3, &[SPLIT, a, b, varint], 31, 20);
    bad.of("third-nine-80-01", 3, &[SPLIT, a, b, whole, &[0]], 32, 38);
    // Twice it is 2^64.
    let twice = &[SPLIT, whole, whole];
    bad.of("second-nine-80-01-again", 3, twice, 30, 20);
}
