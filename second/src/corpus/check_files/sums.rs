//! Refusal 22: the checksums of the sections.

use super::samples::board;
use super::Files;
use crate::corpus::open_files::samples::{full, heading_only, one_edge, set_key, SKIPPED};
use crate::family;
use crate::format::{flag, kind};
use crate::layout::{Layout, Section};
use crate::numbers::id_of;
use crate::xxh3::xxh3_64;

pub fn add(files: &mut Files) {
    each_entry(files);
    other_sums(files);
    changed_bytes(files);
    empty_sections(files);
    two_entries(files);
    long_sections(files);
}

/// The description with another sum in one row.
fn with_sum(layout: Layout, index: usize, change: impl Fn(u64) -> u64) -> Layout {
    layout.with(|l| {
        let section = &mut l.sections[index];
        section.stated.checksum = Some(change(xxh3_64(&section.bytes)));
    })
}

/// Every kind, skipped ones and property streams too, in all layouts at hand.
fn each_entry(files: &mut Files) {
    for (word, layout) in [
        ("full", full()),
        ("board", board()),
        ("one-edge", one_edge()),
        ("reversed", board().with(|l| l.sections.reverse())),
    ] {
        for index in 0..layout.sections.len() {
            let kind = layout.sections[index].kind;
            let name = format!("check-sum-{word}-entry-{index}-kind-{kind}");
            let layout = with_sum(layout.clone(), index, |sum| sum ^ 1);
            files.refused(name, layout, 22, index as u64);
        }
    }
}

/// Sums near the right one, and the right ones of other bytes.
fn other_sums(files: &mut Files) {
    let partners = 3;
    for bit in [7, 8, 31, 32, 63] {
        let layout = with_sum(full(), partners, |sum| sum ^ 1 << bit);
        files.refused(format!("check-sum-bit-{bit}"), layout, 22, 3);
    }
    let bytes = full().sections[partners].bytes.clone();
    let mut others = vec![
        ("zero", 0),
        ("of-nothing", xxh3_64(&[])),
        ("big-endian", xxh3_64(&bytes).swap_bytes()),
        ("complement", !xxh3_64(&bytes)),
        ("but-last-byte", xxh3_64(&bytes[..bytes.len() - 1])),
        ("with-zero-after", xxh3_64(&[&bytes[..], &[0]].concat())),
    ];
    // The gap after the partners is not theirs.
    let gap = full().sections[4].gap.clone();
    others.push(("with-gap", xxh3_64(&[bytes, gap].concat())));
    for (word, sum) in others {
        let layout = with_sum(full(), partners, |_| sum);
        files.refused(format!("check-sum-{word}"), layout, 22, 3);
    }
    // A stream's name is not under its sum.
    let layout = with_sum(full(), 5, |_| xxh3_64(b"weight5 5 5"));
    files.refused("check-sum-with-name", layout, 22, 5);
}

/// The sums stay as they were, and the bytes under them change.
fn changed_bytes(files: &mut Files) {
    let changed = |kind: u16, at: usize| {
        full().with(|l| {
            let section = l.section(kind);
            section.stated.checksum = Some(xxh3_64(&section.bytes));
            section.bytes[at] ^= 0x40;
        })
    };
    for (word, kind, at, entry) in [
        ("skipped", SKIPPED, 0, 2),
        ("skipped-end", SKIPPED, 3, 2),
        ("partners-tag", kind::PARTNERS, 1, 3),
        ("partners-lower-half", kind::PARTNERS, 5, 3),
        ("logs", kind::LOGS, 0, 4),
        ("logs-end", kind::LOGS, 39, 4),
        ("properties", kind::PROPERTIES, 2, 5),
        ("tombstones", kind::TOMBSTONES, 0, 6),
    ] {
        let layout = changed(kind, at);
        files.refused(format!("check-changed-{word}"), layout, 22, entry);
    }
    // Keys and offsets that opening lets pass: this key has no fence.
    let sum = xxh3_64(&full().sections[0].bytes);
    let key = with_sum(full().with(|l| set_key(l, 1, id_of(1, 4))), 0, |_| sum);
    files.refused("check-changed-keys", key, 22, 0);
    let offset = changed(kind::OFFSETS, 3).with(|l| l.sections[1].bytes[3] ^= 0x41);
    files.refused("check-changed-offsets", offset, 22, 1);
    // What opening refuses, it refuses first.
    files.refused("check-changed-fences", changed(kind::FENCES, 8), 15, 0);
    let gap = full().with(|l| l.sections[4].gap[1] ^= 0x40);
    files.fine("check-changed-gap", gap);
}

fn empty_sections(files: &mut Files) {
    for index in [0, 2, 3] {
        let layout = with_sum(heading_only(), index, |_| 0);
        let name = format!("check-sum-zero-of-empty-entry-{index}");
        files.refused(name, layout, 22, index as u64);
    }
    for (word, kind, flags) in [
        ("unknown", 0x0999, 0),
        ("properties", kind::PROPERTIES, flag::PROPERTIES),
        ("tombstones", kind::TOMBSTONES, 0),
    ] {
        let layout = heading_only().with(|l| {
            l.header.flags = flags;
            l.sections.push(Section::new(kind, []));
        });
        files.fine(format!("check-sum-of-empty-{word}"), layout.clone());
        let layout = with_sum(layout, 4, |sum| sum ^ 1 << 40);
        files.refused(format!("check-sum-wrong-of-empty-{word}"), layout, 22, 4);
    }
}

/// The first entry is told.
fn two_entries(files: &mut Files) {
    for (first, second) in [(0, 7), (1, 5), (2, 6), (3, 4), (5, 7), (6, 7), (2, 5)] {
        let layout = with_sum(full(), first, |sum| !sum);
        let layout = with_sum(layout, second, |sum| !sum);
        let name = format!("check-sums-{first}-and-{second}");
        files.refused(name, layout, 22, first as u64);
    }
    let sum = |index: usize| xxh3_64(&full().sections[index].bytes);
    let swapped = with_sum(full(), 3, |_| sum(4));
    let swapped = with_sum(swapped, 4, |_| sum(3));
    files.refused("check-sums-swapped", swapped, 22, 3);
    let all = full().with(|l| {
        for section in &mut l.sections {
            section.stated.checksum = Some(1);
        }
    });
    files.refused("check-sums-all", all, 22, 0);
}

/// Lengths at which the sum takes other ways, in 60 sections before the others.
fn long_sections(files: &mut Files) {
    let mut lengths = vec![1, 3, 4, 8, 9, 16, 17, 128, 129, 240, 241, 256, 512];
    lengths.extend([1023, 1024, 1025, 2047, 2048, 3000]);
    lengths.resize(60, 2);
    let layout = one_edge().with(|l| {
        let section = |&length| Section::new(0x0300, family::bytes(length));
        l.sections.splice(0..0, lengths.iter().map(section));
    });
    files.fine("check-sums-of-all-lengths", layout.clone());
    for index in [18, 63] {
        let layout = layout.clone().with(|l| {
            let section = &mut l.sections[index];
            section.stated.checksum = Some(xxh3_64(&section.bytes));
            *section.bytes.last_mut().expect("not empty") ^= 0x80;
        });
        let name = format!("check-changed-last-byte-of-entry-{index}");
        files.refused(name, layout, 22, index as u64);
    }
}
