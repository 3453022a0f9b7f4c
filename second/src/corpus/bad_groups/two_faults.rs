//! Two faults in one group: the one that is read first is told. The partners
//! begin as in `split` and `dense`.

use super::split::TOO_LARGE;
use super::BadGroups;
use crate::corpus::lookup_calls::raw::{halves, DENSE, SPLIT};
use crate::numbers::id_of;

pub fn add(bad: &mut BadGroups) {
    before_partners(bad);
    split_order(bad);
    split_others(bad);
    dense(bad);
}

/// The degree comes before the tag, the tag before the partners.
fn before_partners(bad: &mut BadGroups) {
    let a = &halves(5, 2)[..];
    let falls = &halves(0, 1)[..];
    let long = &[0x82, 0x00][..];
    bad.raw("long-degree-then-other-tag", &[long, &[0x07], a], 34);
    bad.raw("large-degree-then-other-tag", &[TOO_LARGE, &[7], a], 35);
    bad.raw("degree-0-then-falls", &[&[0], SPLIT, a, falls], 28);
    bad.raw("degree-0-then-long", &[&[0], SPLIT, long], 28);
    bad.of("other-tag-then-falls", 2, &[&[0x12], a, falls], 16, 1);
    bad.of("other-tag-then-long", 1, &[&[0x00], long], 16, 1);
    bad.of("other-tag-then-cut", 9, &[&[0x11], a], 16, 1);
}

/// An order fault of the second of three partners comes before any fault of
/// the third.
fn split_order(bad: &mut BadGroups) {
    let a = &halves(5, 2)[..];
    let falls = &halves(0, 1)[..];
    let mut then = |what: &str, third: &[&[u8]]| {
        let rest = &[SPLIT, a, falls, &third.concat()];
        bad.of(format!("falls-then-{what}"), 3, rest, 29, 11);
    };
    then("nothing", &[]);
    then("open", &[&[0x80]]);
    then("long", &[&[0x80, 0x00], &[1; 8]]);
    then("large", &[TOO_LARGE, &[1; 8]]);
    then("passes", &[&halves(u64::MAX, 3)]);
    then("lower-cut", &[&[1; 8]]);
    then("equal", &[falls]);
    then("more", &[&halves(1, 1), &[7]]);
    let rises = &halves(0, 3)[..];
    bad.of("rises-then-falls", 3, &[SPLIT, a, rises, falls], 29, 20);
    let more = &[SPLIT, a, rises, falls, &[0]];
    bad.of("rises-then-falls-then-more", 3, more, 29, 20);
    bad.of("falls-in-2-to-63", 1 << 63, &[SPLIT, a, falls], 29, 20);
    // A partner that would fall is cut: it cannot be compared.
    bad.of("falls-but-cut", 2, &[SPLIT, a, &falls[..8]], 31, 11);
    bad.of("equal-but-cut", 2, &[SPLIT, a, &[0, 2]], 31, 11);
}

fn split_others(bad: &mut BadGroups) {
    let a = &halves(5, 2)[..];
    let falls = &halves(0, 1)[..];
    let passes = &halves(u64::MAX, 3)[..];
    let long = &[0x80, 0x00, 1, 1, 1, 1, 1, 1, 1, 1][..];
    let large = &[TOO_LARGE, &[1; 8]].concat()[..];
    let mut add = |name: &str, partners: &[&[u8]], number: u8, byte: u64| {
        bad.of(name, 3, &[SPLIT, &partners.concat()], number, byte);
    };
    add("passes-then-nothing", &[a, passes], 30, 11);
    add("passes-then-open", &[a, passes, &[0x80]], 30, 11);
    add("passes-then-falls", &[a, passes, falls], 30, 11);
    add("passes-without-lower", &[a, &passes[..10]], 30, 11);
    add("long-then-falls", &[a, long, falls], 34, 11);
    add("long-then-large", &[a, long, large], 34, 11);
    add("long-then-nothing", &[a, long], 34, 11);
    add("large-then-falls", &[a, large, falls], 35, 11);
    add("large-then-long", &[a, large, long], 35, 11);
    add("large-then-nothing", &[a, &large[..10]], 35, 11);
    add("open-then-end", &[a, &[0x80; 9]], 33, 11);
    add("rises-then-open", &[a, &halves(0, 3), &[0x80]], 33, 20);
    add("rises-then-nothing", &[a, &halves(0, 3)], 33, 20);
}

/// An order fault comes before a cut, also before that of a degree which is far
/// too large, and before bytes left over.
fn dense(bad: &mut BadGroups) {
    let (a, b, c) = (&id_of(5, 1)[..], &id_of(5, 2)[..], &id_of(6, 0)[..]);
    let mut add = |name: &str, degree: u64, partners: &[&[u8]], number: u8, byte: u64| {
        let name = format!("dense-{name}");
        bad.of(name, degree, &[DENSE, &partners.concat()], number, byte);
    };
    add("falls-then-missing", 3, &[b, a], 29, 18);
    add("falls-then-cut", 3, &[b, a, &c[..15]], 29, 18);
    add("falls-then-equal", 3, &[b, a, a], 29, 18);
    add("falls-then-more", 2, &[b, a, &[0]], 29, 18);
    add("rises-then-falls-then-more", 3, &[a, c, b, c], 29, 34);
    add("rises-then-falls-then-cut", 9, &[a, c, b, &c[..7]], 29, 34);
    add("rises-then-cut", 9, &[a, b, c, &c[..7]], 31, 50);
    add("rises-then-missing", 9, &[a, b, c], 31, 50);
    add("falls-in-2-to-60", 1 << 60, &[b, a], 29, 26);
    add("falls-in-2-to-63", 1 << 63, &[b, a], 29, 27);
    add("equal-in-most", u64::MAX, &[a, a, &a[..3]], 29, 27);
    add("falls-but-cut", 2, &[b, &a[..15]], 31, 18);
    add("equal-but-cut", 3, &[a, &a[..15]], 31, 18);
}
