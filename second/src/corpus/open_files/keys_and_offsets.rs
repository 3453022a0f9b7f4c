//! Refusals 13 and 14: the keys and the offsets.

use super::samples::{full, heading_only, one_edge, set_key, set_offset, single_groups};
use super::{expect, Files};
use crate::format::{kind, OFFSET_BITS};
use crate::groups;
use crate::layout::Layout;
use crate::numbers::{id_of, Id};

pub fn add(files: &mut Files) {
    keys(files);
    key_sequences(files);
    offsets(files);
    offset_sequences(files);
    offsets_without_keys(files);
}

fn keys(files: &mut Files) {
    let base = || groups::layout(&single_groups(6), 24);
    for index in 1..6 {
        let mut changed = |word: &str, key: Id| {
            let name = format!("key-{index}-{word}");
            let layout = base().with(|l| set_key(l, index, key));
            files.refused(name, layout, expect(13, index as u64));
        };
        let before = index as u64 - 1;
        changed("equal", id_of(1, before));
        changed("zero", id_of(0, 0));
        if index == 3 {
            changed("as-the-first", id_of(1, 0));
            changed("upper-half-lower", id_of(0, u64::MAX));
            changed("above-as-little-endian", id_of(0, 0xFF));
        }
    }
    // A first key cannot be faulty itself.
    for (word, key) in [("equal-to-the-next", id_of(1, 1)), ("largest", [0xFF; 16])] {
        let layout = base().with(|l| set_key(l, 0, key));
        files.refused(format!("key-0-{word}"), layout, expect(13, 1));
    }
    let layout = base().with(|l| set_key(l, 2, [0xFF; 16]));
    files.refused("key-2-largest", layout, expect(13, 3));
    let layout = full().with(|l| set_key(l, 2, id_of(1, 3)));
    files.refused("key-2-equal-in-full", layout, expect(13, 2));
    for bits in OFFSET_BITS {
        let layout = groups::layout(&single_groups(3), bits).with(|l| set_key(l, 2, id_of(0, 5)));
        files.refused(format!("key-2-lower-{bits}-bits"), layout, expect(13, 2));
    }
}

/// Whole runs of keys. The first index that does not rise is told.
fn key_sequences(files: &mut Files) {
    let mut sequence = |name: &str, keys: &[(u64, u64)], index: u64| {
        let layout = groups::layout(&single_groups(keys.len() as u64), 24).with(|l| {
            for (i, &(upper, lower)) in keys.iter().enumerate() {
                set_key(l, i, id_of(upper, lower));
            }
        });
        files.refused(format!("keys-{name}"), layout, expect(13, index));
    };
    sequence("all-zero", &[(0, 0), (0, 0), (0, 0), (0, 0)], 1);
    sequence("falling", &[(0, 4), (0, 3), (0, 2), (0, 1)], 1);
    sequence("two-falls", &[(0, 1), (0, 5), (0, 3), (0, 4), (0, 2)], 2);
    sequence(
        "below-greatest-but-rising",
        &[(0, 1), (0, 9), (0, 3), (0, 5)],
        2,
    );
    sequence("last-two-equal", &[(0, 1), (0, 2), (0, 3), (0, 3)], 3);
    sequence(
        "rising-as-little-endian",
        &[(0, 0x0001), (0, 0x0201), (0, 0x0102)],
        2,
    );
    sequence(
        "rising-as-bytes-backwards",
        &[(2 << 56, 1), (1 << 56, 2)],
        1,
    );
    sequence("rising-in-lower-half", &[(2, 0), (1, u64::MAX)], 1);
    sequence("equal-in-both-halves", &[(1, 5), (1, 5)], 1);
    sequence("rising-as-signed", &[(1 << 63, 0), (0, 0), (1, 0)], 1);
    sequence("differ-below-in-last-byte", &[(7, 0xFF), (7, 0xFE)], 1);
    sequence(
        "differ-below-in-first-byte",
        &[(2 << 56, 5), (1 << 56, 6)],
        1,
    );
}

fn offsets(files: &mut Files) {
    // Four groups of eleven bytes: 0, 11, 22, 33, 44.
    for bits in OFFSET_BITS {
        let base = || groups::layout(&single_groups(4), bits);
        let mut changed = |word: &str, index: usize, number: u64, faulty: u64| {
            let name = format!("offset-{index}-{word}-{bits}-bits");
            let layout = base().with(|l| set_offset(l, index, number));
            files.refused(name, layout, expect(14, faulty));
        };
        changed("one", 0, 1, 0);
        changed("high-byte", 0, 1 << (bits - 8), 0);
        changed("zero", 1, 0, 1);
        changed("as-the-last", 2, 11, 2);
        changed("below-the-last", 3, 21, 3);
        changed("as-the-next", 2, 33, 3);
        changed("high-byte", 2, 22 + (1 << (bits - 8)), 3);
        changed("as-the-length", 3, 44, 4);
        changed("past-the-length", 3, 45, 4);
        changed("one-less", 4, 43, 4);
        changed("one-more", 4, 45, 4);
        changed("high-byte", 4, 44 + (1 << (bits - 8)), 4);
        changed("largest", 1, (1 << bits) - 1, 2);
    }
    let one = |index: usize, number: u64| one_edge().with(|l| set_offset(l, index, number));
    files.refused("offset-of-one-edge-0-is-11", one(0, 11), expect(14, 0));
    files.refused("offset-of-one-edge-1-is-0", one(1, 0), expect(14, 1));
    files.refused("offset-of-one-edge-1-is-10", one(1, 10), expect(14, 1));
    files.refused("offset-of-one-edge-1-is-12", one(1, 12), expect(14, 1));
    let layout = full().with(|l| set_offset(l, 3, 60));
    files.refused("offset-3-one-more-in-full", layout, expect(14, 3));
}

/// Whole runs of offsets over a partner section of 44 bytes.
fn offset_sequences(files: &mut Files) {
    let base = || groups::layout(&single_groups(4), 32);
    let mut sequence = |name: &str, numbers: [u64; 5], index: u64| {
        let layout = base().with(|l| *l.section(kind::OFFSETS) = groups::offsets(&numbers, 32));
        files.refused(format!("offsets-{name}"), layout, expect(14, index));
    };
    sequence("all-zero", [0; 5], 1);
    sequence("all-the-length", [44; 5], 0);
    sequence("falling", [44, 33, 22, 11, 0], 0);
    sequence("shifted-by-one", [1, 12, 23, 34, 45], 0);
    sequence("two-falls", [0, 30, 20, 10, 44], 2);
    sequence("passing-in-the-middle-then-falling", [0, 50, 60, 20, 44], 3);
    sequence("passing-in-the-middle-to-the-end", [0, 50, 60, 70, 44], 4);
    sequence("passing-and-rising-on", [0, 50, 60, 70, 80], 4);
    sequence("equal-at-the-end", [0, 11, 22, 44, 44], 4);
    sequence(
        "rising-as-little-endian",
        [0, 0x0201, 0x0102, 0x0203, 44],
        2,
    );
    sequence("big-endian", [0, 11, 22, 33, 44].map(|n: u64| n << 24), 4);
    sequence("rising-as-signed", [0, (1 << 31) + 1, 3, 4, 44], 2);
    // The offsets are right, and the partner section is longer or shorter.
    let longer = base().with(|l| l.section(kind::PARTNERS).bytes.push(0));
    files.refused("offsets-of-longer-partners", longer, expect(14, 4));
    let shorter = base().with(|l| l.section(kind::PARTNERS).bytes.truncate(43));
    files.refused("offsets-of-shorter-partners", shorter, expect(14, 4));
    let none = base().with(|l| l.section(kind::PARTNERS).bytes.clear());
    files.refused("offsets-of-no-partners", none, expect(14, 4));
}

/// The only offset is the first and the last.
fn offsets_without_keys(files: &mut Files) {
    let partners = |layout: Layout, length: usize| {
        layout.with(|l| l.section(kind::PARTNERS).bytes = vec![0; length])
    };
    for bits in OFFSET_BITS {
        let base = || groups::layout(&[], bits);
        let mut refused = |word: &str, layout: Layout| {
            let name = format!("offset-without-keys-{word}-{bits}-bits");
            files.refused(name, layout, expect(14, 0));
        };
        let one = |layout: Layout| layout.with(|l| set_offset(l, 0, 1));
        refused("one", one(base()));
        refused(
            "high-byte",
            base().with(|l| set_offset(l, 0, 1 << (bits - 8))),
        );
        refused("zero-of-one-partner-byte", partners(base(), 1));
        refused("one-of-one-partner-byte", one(partners(base(), 1)));
    }
    let layout = partners(heading_only(), 11);
    files.refused("partners-without-keys", layout, expect(14, 0));
}
