//! Records whose ranges lie in unlikely places that the rules allow: in header
//! and footer, at the file's very end, over each other. And offset sections
//! that are read at another width.

use super::raw::{self, single, DENSE};
use super::{ask, expect, faulty, found, Files, Intended, LentRecord, LookupFile, Question};
use crate::corpus::open_files::samples::{one_edge, single_groups};
use crate::format::OFFSET_BITS;
use crate::groups;
use crate::numbers::{id_of, Id};
use crate::open::Range;

pub fn add(files: &mut Files) {
    other_places(files);
    empty_ranges(files);
    key_is_partner(files);
    key_is_offsets_and_group(files);
    zeros(files);
    other_widths(files);
}

const fn range(offset: u64, length: u64) -> Range {
    Range { offset, length }
}

/// One key and one edge, with tombstones. The ranges are to be set.
const ONE_OF_EACH: LentRecord = LentRecord {
    keys: range(0, 0),
    offsets: range(0, 0),
    partners: range(0, 0),
    logs: range(0, 0),
    dead: range(0, 0),
    marked: true,
    key_count: 1,
    edge_count: 1,
    offset_bits: 24,
    starts: range(0, 0),
    indexed: false,
};

/// One range after the other lies elsewhere in the file of one edge.
fn other_places(files: &mut Files) {
    let layout = one_edge();
    let file = files.layout("places", &layout);
    let own = LentRecord::of_layout(&layout);
    partners_elsewhere(file, &own);
    keys_elsewhere(file, &own);
    logs_elsewhere(file, &own);
    offsets_elsewhere(file, &own);
}

/// Asks for the key of the file of one edge.
fn its_key(record: &LentRecord) -> Question {
    ask(id_of(1, 2)).by(record)
}

fn partners_elsewhere(file: &mut LookupFile, own: &LentRecord) {
    let size = file.size();
    let record = own.with(|r| r.partners.length = size - r.partners.offset);
    file.both("partners-to-the-end", its_key(&record), found(1, 0));
    let record = own.with(|r| r.partners.length += 1 + size - r.partners.offset);
    file.both("partners-past-the-end", its_key(&record), expect(21, 0));
    // The offsets then count from the file's first byte: 84 partners and no tag
    // that there is.
    let record = own.with(|r| r.partners = range(0, size));
    file.both("partners-are-the-file", its_key(&record), faulty(16, 1, 0));
    let record = own.with(|r| r.partners = range(size, 0));
    file.both("no-partners-at-the-end", its_key(&record), expect(14, 0));
}

/// The key is what lies there.
fn keys_elsewhere(file: &mut LookupFile, own: &LentRecord) {
    for (word, at) in [
        ("magic", 0),
        ("type", 16),
        ("offsets", own.offsets.offset),
        ("table", one_edge().footer_place() + 2),
        ("end", file.size() - 16),
    ] {
        let record = own.with(|r| r.keys.offset = at);
        let there: Id = file.bytes[at as usize..][..16]
            .try_into()
            .expect("16 bytes");
        let name = format!("key-in-{word}");
        file.both(name, ask(there).by(&record), found(1, 0));
        let name = format!("key-not-in-{word}");
        file.both(name, its_key(&record), Intended::Absent);
    }
}

fn logs_elsewhere(file: &mut LookupFile, own: &LentRecord) {
    for (word, at) in [
        ("magic", 0),
        ("label", 41),
        ("key", own.keys.offset + 4),
        ("partner", own.partners.offset + 3),
        ("footer", one_edge().footer_place()),
        ("end", file.size() - 8),
    ] {
        let record = own.with(|r| r.logs.offset = at);
        file.both(format!("log-in-{word}"), its_key(&record), found(1, 0));
    }
    let record = own.with(|r| r.logs.offset = file.size() - 7);
    file.both("log-past-the-end", its_key(&record), expect(21, 0));
}

fn offsets_elsewhere(file: &mut LookupFile, own: &LentRecord) {
    // The first six bytes are no offsets of this partner range.
    let record = own.with(|r| r.offsets.offset = 0);
    file.both("offsets-in-magic", its_key(&record), expect(14, 0));
    // Zeros behind a zero: an empty group.
    let record = own.with(|r| r.offsets.offset = own.keys.offset);
    file.both("offsets-in-key", its_key(&record), faulty(33, 0, 0));
}

/// An empty range may lie anywhere up to the file's end.
fn empty_ranges(files: &mut Files) {
    let layout = one_edge();
    let own = LentRecord::of_layout(&layout).with(|r| {
        (r.key_count, r.edge_count) = (0, 0);
        r.partners.length = 0;
        r.fit();
    });
    let file = files.layout("empty", &layout);
    let size = file.size();
    type Place = fn(&mut LentRecord) -> &mut Range;
    let places: [(&str, Place); 3] = [
        ("keys", |r| &mut r.keys),
        ("partners", |r| &mut r.partners),
        ("logs", |r| &mut r.logs),
    ];
    let key = id_of(1, 2);
    for (word, place) in places {
        for (at, answer) in [
            (0, Intended::Absent),
            (size, Intended::Absent),
            (size + 1, expect(21, 0)),
            (1 << 63, expect(21, 0)),
            (u64::MAX, expect(21, 0)),
        ] {
            let record = own.with(|r| place(r).offset = at);
            file.both(format!("{word}-at-{at}"), ask(key).by(&record), answer);
        }
    }
    for (at, answer) in [(size - 3, Intended::Absent), (size - 2, expect(21, 0))] {
        let record = own.with(|r| r.offsets.offset = at);
        file.both(format!("offsets-at-{at}"), ask(key).by(&record), answer);
    }
}

/// Bytes that are no file at all, and stand for several things at once: a
/// dense group of one partner, 2 and 16 bytes, and offsets 0 and 18.
fn key_is_partner(files: &mut Files) {
    let partner = id_of(0x0102030405060708, 0x090A0B0C0D0E0F10);
    let mut bytes = raw::group(1, &[DENSE, &partner]);
    bytes.extend([0, 0, 0, 18, 0, 0]);
    let file = files.bytes("overlap", bytes);
    let record = LentRecord {
        keys: range(2, 16),
        offsets: range(18, 6),
        partners: range(0, 18),
        logs: range(0, 8),
        dead: range(0, 1),
        ..ONE_OF_EACH
    };
    file.both("one-call", ask(partner), expect(1, 0));
    let mut by = |name: &str, change: fn(&mut LentRecord), answer: Intended| {
        file.both(name, ask(partner).by(&record.with(change)), answer);
    };
    by("key-is-partner", |_| (), found(1, 0));
    by("partners-hold-all", |r| r.partners.length = 24, found(1, 0));
    by("log-to-the-end", |r| r.logs.offset = 16, found(1, 0));
    by("dead-to-the-end", |r| r.dead.offset = 23, found(1, 0));
    by("log-past-the-end", |r| r.logs.offset = 17, expect(21, 0));
    by("key-shifted", |r| r.keys.offset = 1, Intended::Absent);
    let no_edges = record.with(|r| {
        r.edge_count = 0;
        r.fit();
    });
    file.misplaced("no-edges", ask(partner).by(&no_edges), 1, 0);
}

/// A key whose first bytes are its own offsets, 0 and 11, and whose other
/// bytes are its group but for the last one.
fn key_is_offsets_and_group(files: &mut Files) {
    let mut bytes = vec![0, 0, 0, 11, 0, 0];
    bytes.extend(single(5, 1 << 56));
    let key: Id = bytes[..16].try_into().expect("16 bytes");
    let file = files.bytes("overlap-key", bytes);
    let record = LentRecord {
        keys: range(0, 16),
        offsets: range(0, 6),
        partners: range(6, 11),
        logs: range(9, 8),
        dead: range(3, 1),
        ..ONE_OF_EACH
    };
    let mut by = |name: &str, change: fn(&mut LentRecord), answer: Intended| {
        file.both(name, ask(key).by(&record.with(change)), answer);
    };
    by("all-in-one", |_| (), found(1, 0));
    // Offsets that fall, and offsets that pass.
    by("offsets-at-1", |r| r.offsets.offset = 1, expect(14, 0));
    by("offsets-at-3", |r| r.offsets.offset = 3, expect(14, 0));
    // The byte before the group is a degree of 0.
    by(
        "partners-at-5",
        |r| r.partners = range(5, 12),
        faulty(28, 0, 0),
    );
    by("partners-cut", |r| r.partners = range(6, 10), expect(14, 0));
}

/// Keys that are all zero, and offsets of which none rises.
fn zeros(files: &mut Files) {
    let file = files.bytes("zeros", vec![0; 200]);
    for key_count in [1, 2, 3, 4, 7, 8] {
        let record = LentRecord {
            partners: range(200, 0),
            key_count,
            edge_count: 1600,
            offset_bits: 40,
            ..ONE_OF_EACH
        }
        .with(LentRecord::fit);
        // More log numbers than the file has bytes.
        let past = ask([0; 16]).by(&record);
        file.both(format!("edges-past-{key_count}"), past, expect(21, 0));
        let record = record.with(|r| {
            r.edge_count = 25;
            r.fit();
        });
        let question = |key: Id| ask(key).by(&record);
        // The middle key is met first; its group is empty.
        let middle = faulty(33, 0, key_count / 2);
        file.both(format!("{key_count}-keys"), question([0; 16]), middle);
        let name = format!("{key_count}-keys-above");
        file.both(name, question(id_of(0, 1)), Intended::Absent);
        let record = record.with(|r| (r.partners.offset, r.partners.length) = (0, 200));
        let name = format!("{key_count}-keys-whole");
        file.both(name, ask([0; 16]).by(&record), middle);
    }
}

/// Offsets of one width, read at another.
fn other_widths(files: &mut Files) {
    for bits in OFFSET_BITS {
        let groups = single_groups(4);
        let layout = groups::layout(&groups, bits);
        let file = files.layout(format!("width-{bits}"), &layout);
        for read in OFFSET_BITS {
            let record = LentRecord::of_layout(&layout).with(|r| {
                r.offset_bits = read;
                r.fit();
            });
            for (index, group) in groups.iter().enumerate() {
                // Only from 48 bits to 24 the first two offsets are both 0.
                let answer = match (bits, read) {
                    _ if bits == read => Some(found(1, index as u64)),
                    _ if index > 0 => None,
                    (48, 24) => Some(faulty(33, 0, 0)),
                    _ => Some(expect(14, 0)),
                };
                let name = format!("read-{read}-{index}");
                file.both(name, ask(group.key).by(&record), answer);
            }
        }
    }
}
