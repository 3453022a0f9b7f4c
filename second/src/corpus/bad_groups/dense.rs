//! Dense groups with one fault. After a degree of one byte and the tag the
//! partners begin at 2, 18 and 34, and a fourth would at 50.

use super::BadGroups;
use crate::corpus::lookup_calls::raw::{halves, DENSE};
use crate::numbers::id_of;

pub fn add(bad: &mut BadGroups) {
    cut(bad);
    overlong(bad);
    order(bad);
    degrees(bad);
}

/// The first, a middle or the last partner is missing, or cut after its first
/// byte or before its last.
fn cut(bad: &mut BadGroups) {
    let (a, b, c) = (&id_of(5, 1)[..], &id_of(5, 2)[..], &id_of(6, 0)[..]);
    for (word, left) in [("missing", 0), ("one-byte", 1), ("cut-by-1", 15)] {
        let mut add = |which: &str, degree: u64, partners: &[&[u8]], byte: u64| {
            let name = format!("dense-{which}-{word}");
            bad.of(name, degree, &[DENSE, &partners.concat()], 31, byte);
        };
        add("only", 1, &[&a[..left]], 2);
        add("first-of-3", 3, &[&a[..left]], 2);
        add("second-of-2", 2, &[a, &b[..left]], 18);
        add("second-of-3", 3, &[a, &b[..left]], 18);
        add("third-of-3", 3, &[a, b, &c[..left]], 34);
    }
    bad.of("dense-holds-split", 1, &[DENSE, &halves(5, 1)], 31, 2);
}

/// More follows after the last partner.
fn overlong(bad: &mut BadGroups) {
    let (a, b, c) = (id_of(5, 1), id_of(5, 2), id_of(6, 0));
    bad.of("dense-overlong-by-1", 1, &[DENSE, &a, &[0]], 32, 18);
    bad.of("dense-overlong-by-16", 1, &[DENSE, &a, &b], 32, 18);
    bad.of("dense-overlong-by-300", 1, &[DENSE, &a, &[9; 300]], 32, 18);
    bad.of("dense-of-2-overlong", 2, &[DENSE, &a, &b, &c[..8]], 32, 34);
    bad.of("dense-of-3-overlong", 3, &[DENSE, &a, &b, &c, &[1]], 32, 50);
}

/// A partner is not above the one before it.
fn order(bad: &mut BadGroups) {
    let (a, b, c) = (id_of(5, 1), id_of(5, 2), id_of(6, 0));
    bad.of("dense-equal", 2, &[DENSE, &a, &a], 29, 18);
    bad.of("dense-falls-below", 2, &[DENSE, &b, &a], 29, 18);
    bad.of("dense-falls-above", 2, &[DENSE, &c, &b], 29, 18);
    bad.of("dense-second-equal", 3, &[DENSE, &a, &a, &b], 29, 18);
    bad.of("dense-second-falls", 3, &[DENSE, &b, &a, &c], 29, 18);
    bad.of("dense-last-falls", 3, &[DENSE, &a, &c, &b], 29, 34);
    bad.of("dense-last-equal", 3, &[DENSE, &a, &b, &b], 29, 34);
    // Above the first, but not above the second.
    bad.of("dense-last-between", 3, &[DENSE, &b, &c, &b], 29, 34);
    let (d, e) = (id_of(1, 0x0201), id_of(1, 0x0102));
    bad.of("dense-rises-little-endian", 2, &[DENSE, &d, &e], 29, 18);
    let (f, g) = (id_of(1 << 63, 0), id_of(1, 0));
    bad.of("dense-rises-as-signed", 2, &[DENSE, &f, &g], 29, 18);
}

/// Sixteen times the degree comes round to the bytes that are there, or the
/// degree is far above them: the partner that is not whole is told.
fn degrees(bad: &mut BadGroups) {
    let (a, b) = (id_of(5, 1), id_of(5, 2));
    for (word, power, first) in [
        ("2-to-28", 1 << 28, 6),
        ("2-to-60", 1 << 60, 10),
        ("2-to-63", 1 << 63, 11),
    ] {
        let name = format!("dense-degree-{word}");
        bad.of(name, power, &[DENSE], 31, first);
        let name = format!("dense-degree-{word}-and-1");
        bad.of(name, power + 1, &[DENSE, &a], 31, first + 16);
    }
    bad.of("dense-degree-most", u64::MAX, &[DENSE, &a, &b], 31, 43);
    bad.of("dense-degree-101", 101, &[DENSE, &a, &b], 31, 34);
}
