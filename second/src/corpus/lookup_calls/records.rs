//! Records that are lawful and say something else than the file: of another
//! file, without its tombstones or with others, of fewer or more keys.

use super::{ask, expect, found, Files, Intended, LentRecord, LookupFile};
use crate::corpus::open_files::samples::{
    dead, dense, full, heading_only, live, one_edge, single_groups, split, three_groups,
};
use crate::groups::{self, Group};
use crate::layout::Layout;
use crate::numbers::{id_of, Id};
use crate::open::Range;

pub fn add(files: &mut Files) {
    other_files(files);
    same_places(files);
    tombstones(files);
    other_counts(files);
}

/// The record of each of these files on the bytes of each other one.
fn other_files(files: &mut Files) {
    let few = |bits| groups::layout(&single_groups(4), bits);
    let all: [(&str, Layout, &[Id]); 7] = [
        ("heading", heading_only(), &[id_of(1, 0)]),
        ("edge", one_edge(), &[id_of(1, 2)]),
        (
            "three",
            groups::layout(&three_groups(), 24),
            &[id_of(1, 2), id_of(1, 3)],
        ),
        (
            "three48",
            groups::layout(&three_groups(), 48),
            &[id_of(1, 2), id_of(2, 0)],
        ),
        ("full", full(), &[id_of(1, 2), id_of(1, 3)]),
        ("four", few(24), &[id_of(1, 0), id_of(1, 2)]),
        ("four32", few(32), &[id_of(1, 1), id_of(1, 3)]),
    ];
    for (name, layout, _) in &all {
        let file = files.layout(format!("file-{name}"), layout);
        for (record_name, record_layout, keys) in &all {
            if record_name == name {
                continue;
            }
            let record = LentRecord::of_layout(record_layout);
            // A record of no keys fits every file.
            let answer = (*record_name == "heading").then_some(Intended::Absent);
            for (i, &key) in keys.iter().enumerate() {
                let call = format!("record-of-{record_name}-{i}");
                file.both(call, ask(key).by(&record), answer);
            }
        }
    }
}

/// A record of another file whose sections have the same places: the answer is
/// what lies there in this file.
fn same_places(files: &mut Files) {
    let with = |edge| groups::layout(&[split(id_of(1, 2), &[edge])], 24);
    let record = LentRecord::of_layout(&with(live(5, 1, 7)));
    let file = files.layout("other-edge", &with(live(100, u64::MAX, 1 << 40)));
    file.both("record", ask(id_of(1, 2)).by(&record), found(1, 0));
    // This file has a dead edge, of which the record knows nothing.
    let file = files.layout("other-dead-edge", &with(dead(6, 2, 8)));
    file.both("record", ask(id_of(1, 2)).by(&record), found(1, 0));
    file.both("own", ask(id_of(1, 2)), found(1, 0));

    // A dense group is longer than the record's partner range.
    let dense_one = groups::layout(&[dense(id_of(1, 2), &[live(5, 1, 7)])], 24);
    let file = files.layout("other-form", &dense_one);
    file.both("record", ask(id_of(1, 2)).by(&record), expect(14, 0));
    file.both("own", ask(id_of(1, 2)), found(1, 0));
}

/// Groups of which every edge is dead.
fn dead_groups() -> [Group; 4] {
    let edges: Vec<_> = (0..3).map(|i| dead(i, i, i)).collect();
    [
        split(id_of(1, 1), &edges[..2]),
        split(id_of(1, 2), &edges),
        dense(id_of(1, 3), &edges),
        split(id_of(1, 4), &edges[1..]),
    ]
}

/// The mark in the record decides whether there are tombstones, its range
/// where they are.
fn tombstones(files: &mut Files) {
    let dead_layout = groups::layout(&dead_groups(), 24);
    let live_layout = dead_layout.clone().with(|l| {
        l.header.flags = 0;
        l.sections.truncate(4);
    });
    for (name, layout) in [("dead", dead_layout), ("live", live_layout)] {
        let file = files.layout(format!("marks-{name}"), &layout);
        let own = LentRecord::of_layout(&layout);
        for (word, marked, dead) in marks(&own, file.size()) {
            all_found(
                file,
                word,
                &own.with(|r| (r.marked, r.dead) = (marked, dead)),
            );
        }
    }
}

/// Whether there are tombstones, and where, in a file of this size.
fn marks(own: &LentRecord, size: u64) -> [(&'static str, bool, Range); 11] {
    let range = |offset, length| Range { offset, length };
    [
        ("own", own.marked, own.dead),
        ("unmarked", false, range(0, 0)),
        ("unmarked-with-range", false, own.dead),
        ("unmarked-past-the-file", false, range(size, 1)),
        ("unmarked-largest", false, range(u64::MAX, u64::MAX)),
        ("in-the-magic", true, range(1, 2)),
        ("in-the-keys", true, range(own.keys.offset + 14, 2)),
        ("in-the-partners", true, range(own.partners.offset, 2)),
        ("in-the-logs", true, range(own.logs.offset + 7, 2)),
        ("at-the-end", true, range(size - 2, 2)),
        ("in-the-footer", true, range(size - 20, 2)),
    ]
}

/// All the groups in full, and one of them alone.
fn all_found(file: &mut LookupFile, word: &str, record: &LentRecord) {
    let groups = dead_groups();
    for (index, group) in (0..).zip(&groups) {
        let answer = found(group.edges.len() as u64, index);
        let name = format!("{word}-{index}");
        file.full(name, ask(group.key).by(record), answer);
    }
    file.alone(word, ask(groups[2].key).by(record), found(3, 2));
}

/// Other counts of keys and edges, with the lengths that they give.
fn other_counts(files: &mut Files) {
    let layout = full();
    let own = LentRecord::of_layout(&layout);
    let file = files.layout("counts", &layout);
    for key_count in 0..=8 {
        let record = own.with(|record| {
            record.key_count = key_count;
            record.fit();
        });
        keys_among(file, &record);
    }
    for edge_count in 0..=17 {
        let record = own.with(|record| {
            record.edge_count = edge_count;
            record.fit();
        });
        keys_with_edges(file, &record);
    }
}

/// The keys of `full`, each with its index, its degree and the end of its
/// edges.
fn keys_of_full() -> [(Id, u64, u64, u64); 3] {
    [
        (id_of(1, 2), 0, 2, 2),
        (id_of(1, 3), 1, 1, 3),
        (id_of(2, 0), 2, 2, 5),
    ]
}

/// The keys by a record of more or fewer of them. Above three, keys are read
/// from what follows the key section.
fn keys_among(file: &mut LookupFile, record: &LentRecord) {
    let key_count = record.key_count;
    for (key, index, degree, _) in keys_of_full() {
        let answer = match key_count {
            0..=3 if index < key_count => Some(found(degree, index)),
            0..=3 => Some(Intended::Absent),
            _ => None,
        };
        let name = format!("keys-{key_count}-{index}");
        file.both(name, ask(key).by(record), answer);
    }
}

/// The keys by a record of more or fewer edges.
fn keys_with_edges(file: &mut LookupFile, record: &LentRecord) {
    let edge_count = record.edge_count;
    for (key, index, degree, end) in keys_of_full() {
        let name = format!("edges-{edge_count}-{index}");
        let question = ask(key).by(record);
        if end <= edge_count {
            file.full(name, question, found(degree, index));
        } else {
            file.misplaced(name, question, degree, index);
        }
    }
}
