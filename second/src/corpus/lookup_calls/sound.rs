//! Sound files: every key that is there, and keys beside them that are not.

use super::{ask, found, Files, Intended, LentRecord, LookupFile, Rooms};
use crate::corpus::open_files;
use crate::corpus::open_files::samples::{
    dead, dense, full, live, one_edge, single_groups, split, three_groups, SKIPPED,
};
use crate::format::{flag, kind, OFFSET_BITS};
use crate::groups::{self, Edge, Group};
use crate::layout::{Layout, Section};
use crate::numbers::{id_number, id_of, Id};
use crate::open::open;
use std::collections::BTreeSet;

pub fn add(files: &mut Files) {
    offset_widths(files);
    group_forms(files);
    upper_halves(files);
    lower_halves(files);
    tombstones(files);
    skipped_sections(files);
    inverse(files);
    files_of_opening(files);
}

/// Asks for every key on the file alone, by its record, and by its record without
/// the start index if it has one; and for absent keys.
pub(super) fn every_key(
    files: &mut Files,
    name: impl Into<String>,
    layout: Layout,
    groups: Vec<Group>,
) {
    let file = files.layout(name, &layout);
    let record = LentRecord::of_layout(&layout);
    for (index, group) in groups.iter().enumerate() {
        let degree = group.edges.len() as u64;
        let question = ask(group.key).rooms(Rooms::more(degree as u32 + 1));
        let answer = found(degree, index as u64);
        file.both(format!("key-{index}"), question.clone(), answer);
        let exact = question.rooms(Rooms::exact(degree as u32));
        let own = exact.clone().by(&record);
        file.both(format!("own-record-{index}"), own, answer);
        if record.indexed {
            let hidden = exact.by(&record.without_starts());
            file.both(format!("hidden-{index}"), hidden, answer);
        }
    }
    if groups.is_empty() {
        let question = ask(id_of(1, 2)).rooms(Rooms::NONE);
        file.both("no-keys", question.clone(), Intended::Absent);
        let by_record = question.by(&record);
        file.both("no-keys-by-record", by_record, Intended::Absent);
    }
    let keys: Vec<Id> = groups.iter().map(|group| group.key).collect();
    absent_keys(file, &keys, &record);
    file.groups = Some(groups);
}

/// The keys next to each key, those that share one half with it, and the two
/// ends, as far as they are absent.
fn absent_keys(file: &mut LookupFile, keys: &[Id], record: &LentRecord) {
    let mut asked: BTreeSet<Id> = keys.iter().copied().collect();
    let mut absent = |name: String, key: Id| {
        if !asked.insert(key) {
            return;
        }
        // All four sorts of calls take turns.
        let turn = asked.len();
        let question = ask(key).rooms([Rooms::NONE, Rooms::more(1)][turn % 2]);
        match turn % 4 {
            0 => file.full(name, question, Intended::Absent),
            1 => file.alone(name, question.by(record), Intended::Absent),
            2 => file.alone(name, question, Intended::Absent),
            _ => file.full(name, question.by(record), Intended::Absent),
        }
    };
    absent("lowest".to_string(), [0x00; 16]);
    absent("highest".to_string(), [0xFF; 16]);
    for (index, key) in keys.iter().enumerate() {
        let number = id_number(key);
        let (upper, lower) = ((number >> 64) as u64, number as u64);
        let at = |word: &str| format!("{word}-{index}");
        absent(at("below"), number.saturating_sub(1).to_be_bytes());
        absent(at("above"), number.saturating_add(1).to_be_bytes());
        absent(at("same-upper-half"), id_of(upper, !lower));
        absent(at("same-lower-half"), id_of(!upper, lower));
        absent(at("halves-swapped"), id_of(lower, upper));
    }
}

fn offset_widths(files: &mut Files) {
    for bits in OFFSET_BITS {
        let mut add = |word: &str, groups: Vec<Group>| {
            let layout = groups::layout(&groups, bits);
            every_key(files, format!("{word}-{bits}-bits"), layout, groups);
        };
        add("heading-only", Vec::new());
        add("one-edge", single_groups(1));
        add("three-groups", three_groups());
        // An offset of which two bytes count.
        let edges: Vec<Edge> = (0..40).map(|i| live(7, i, i)).collect();
        let groups = vec![
            split(id_of(1, 0), &edges),
            dense(id_of(2, 0), &edges[7..]),
            split(id_of(2, 5), &[dead(1, 1, 1)]),
        ];
        add("offsets-above-255", groups);
    }
    let groups = three_groups();
    let fences = groups::fences(&groups, 2);
    let layout = groups::layout(&groups, 24).with(|l| l.sections.push(fences));
    every_key(files, "three-groups-with-fences", layout, groups);
    every_key(files, "full", full(), three_groups());
}

fn group_forms(files: &mut Files) {
    let key = id_of(1, 2);
    let mut one_group = |name: &str, group: Group| {
        let layout = groups::layout(std::slice::from_ref(&group), 24);
        every_key(files, name, layout, vec![group]);
    };
    one_group("one-edge", split(key, &[live(5, 1, 7)]));
    one_group("one-edge-dense", dense(key, &[live(5, 1, 7)]));
    one_group("one-edge-dead", split(key, &[dead(5, 1, 7)]));
    one_group("one-edge-dense-dead", dense(key, &[dead(5, 1, 7)]));
    let largest = live(u64::MAX, u64::MAX, u64::MAX);
    one_group(
        "one-edge-largest-numbers",
        split(id_of(u64::MAX, u64::MAX), &[largest]),
    );
    one_group("largest-dense", dense(id_of(u64::MAX, 0), &[largest]));
    let smallest = live(0, 0, 0);
    one_group("one-edge-smallest-numbers", split([0; 16], &[smallest]));
    one_group("smallest-dense", dense([0; 16], &[smallest]));
    let two_to_63 = [live(1 << 63, 1, 7)];
    one_group("upper-half-2-to-63", split(key, &two_to_63));
    let apart = [live(5, 1, 7), live(5 + (1 << 63), 0, 8)];
    one_group("upper-halves-2-to-63-apart", split(key, &apart));
    let ends = [smallest, dead(u64::MAX, u64::MAX, u64::MAX)];
    one_group("smallest-and-largest", split(key, &ends));
    one_group("smallest-and-largest-dense", dense(key, &ends));
    one_group(
        "two-edges-of-one-key",
        split(key, &[live(5, 1, 7), live(5, 2, 8)]),
    );
    one_group(
        "three-dense-edges-of-one-key",
        dense(key, &[live(5, 1, 7), dead(5, 2, 8), live(6, 0, 9)]),
    );
}

/// Upper halves at both sides of each length of a varint, as a first one and
/// as a difference. No reader asks whether the split form is the shorter.
fn upper_halves(files: &mut Files) {
    let groups: Vec<Group> = (1..=9)
        .map(|k| {
            let power = 1 << (7 * k);
            let edges = [
                live(power - 1, 9, k),
                dead(power, 8, u64::MAX - k),
                live(2 * (power - 1) + 1, 7, 1 << k),
            ];
            split(id_of(0, 100 * k), &edges)
        })
        .collect();
    let layout = groups::layout(&groups, 24);
    every_key(files, "upper-halves", layout, groups);
}

/// Lower halves that would not increase if they were read the other way round,
/// or as signed numbers.
fn lower_halves(files: &mut Files) {
    let lowers = [2, 1 << 56, (1 << 63) - 1, 1 << 63, u64::MAX];
    let edges = |uppers: fn(u64) -> u64| -> Vec<Edge> {
        let edge = |(i, &lower): (usize, &u64)| live(uppers(i as u64), lower, lower);
        lowers.iter().enumerate().map(edge).collect()
    };
    let same = edges(|_| 5);
    let mut rising = edges(|i| 1 << (8 * i));
    for (edge, lower) in rising.iter_mut().zip(lowers.iter().rev()) {
        edge.partner[8..].copy_from_slice(&lower.to_be_bytes());
    }
    let groups = vec![
        split(id_of(1, 1), &same),
        dense(id_of(1, 2), &same),
        split(id_of(1, 3), &rising),
        dense(id_of(1, 4), &rising),
    ];
    let layout = groups::layout(&groups, 32);
    every_key(files, "lower-halves", layout, groups);
}

/// Groups whose edges begin and end at all places of a tombstone byte.
fn tombstones(files: &mut Files) {
    let mut log = 0;
    let groups: Vec<Group> = [3, 5, 1, 6, 2, 8, 9]
        .iter()
        .enumerate()
        .map(|(index, &degree)| {
            let edges: Vec<Edge> = (0..degree)
                .map(|i| {
                    log += 1;
                    let edge = if log % 3 == 1 { dead } else { live };
                    edge(i, i, log)
                })
                .collect();
            split(id_of(1, 10 * index as u64), &edges)
        })
        .collect();
    let sound = groups::layout(&groups, 24);
    // The section decides, not the flag; and unused bits are not looked at.
    let changed = sound.clone().with(|l| {
        l.header.flags &= !flag::TOMBSTONES;
        l.section(kind::TOMBSTONES).bytes[4] |= 0xFC;
    });
    every_key(files, "tombstones", sound, groups.clone());
    every_key(files, "tombstones-without-flag", changed, groups);
}

/// Minor 200 and sections of unknown kinds before, between and after all others.
fn skipped_sections(files: &mut Files) {
    let unknown = |l: &mut Layout| {
        l.header.minor = 200;
        let kinds = [300, SKIPPED, 0, 0xFFFF, 0x01FF, SKIPPED];
        for (i, kind) in kinds.into_iter().enumerate() {
            let bytes: Vec<u8> = (0..=2 * i as u8).collect();
            let section = Section::new(kind, bytes).codec(i as u8).named(*b"what");
            l.sections.insert(2 * i, section);
        }
    };
    let groups = three_groups();
    let layout = groups::layout(&groups, 24).with(unknown);
    every_key(files, "minor-200-three-groups", layout, groups);
    let layout = one_edge().with(|l| {
        l.header.minor = 200;
        l.header.flags |= flag::PROPERTIES;
        l.sections.insert(0, Section::new(kind::PROPERTIES, *b"p"));
        l.sections.push(Section::new(300, *b"unknown").named(*b"?"));
    });
    let groups = vec![split(id_of(1, 2), &[live(5, 1, 7)])];
    every_key(files, "minor-200-one-edge", layout, groups);
}

fn inverse(files: &mut Files) {
    let groups = three_groups();
    let layout = groups::layout(&groups, 24).with(|l| l.header.flags |= flag::INVERSE);
    every_key(files, "inverse", layout, groups);
}

/// Files of the corpus of opening, by the first words of their names: those
/// that open, with every layout and with faults that opening does not look for.
fn files_of_opening(files: &mut Files) {
    let begins = [
        "keys-",
        "order-",
        "gaps-everywhere",
        "gap-like",
        "flags-1",
        "empty-section",
        "three-empty",
        "tombstones-of-9",
        "fences-over-5-keys-stride-2",
        "fences-before",
        "unread-group",
        "unread-edges",
        "unread-dead",
        "unread-unused",
        "unread-checksum-of-section-3",
    ];
    for opened in open_files::small() {
        let chosen = begins.iter().any(|begin| opened.name.starts_with(begin));
        let Ok(record) = open(&opened.bytes).map(|opened| opened.record) else {
            continue;
        };
        if !chosen {
            continue;
        }
        let file = files.bytes(opened.name, opened.bytes);
        let lent = LentRecord::of(&record);
        let keys =
            file.bytes[record.keys.offset as usize..][..record.keys.length as usize].to_vec();
        for (index, key) in keys.chunks_exact(16).enumerate() {
            let question = ask(key.try_into().expect("16 bytes")).rooms(Rooms::more(9));
            file.both(format!("key-{index}"), question.clone(), None);
            file.full(format!("own-record-{index}"), question.by(&lent), None);
        }
    }
}
