//! The start index in lookups: sound ones, such as disagree with the degrees,
//! numbers of any sort by hand-made records, and earlier groups that are not
//! looked at.

use super::raw::{self, group, halves, single, SPLIT};
use super::sound::every_key;
use super::{ask, expect, faulty, found, Files, Intended, LentRecord, LookupFile, Rooms};
use crate::corpus::open_files::samples::{
    five_groups, five_with_starts, full, full_indexed, indexed_1025_keys, one_edge, set_offset,
    single_groups, three_groups, FIVE_STARTS,
};
use crate::format::kind;
use crate::groups;
use crate::layout::Layout;
use crate::numbers::{id_of, Id};
use crate::open::Range;
use crate::random::Random;
use std::collections::BTreeSet;

pub fn add(files: &mut Files) {
    sound_files(files);
    many_keys(files);
    disagreeing(files);
    numbers_by_record(files);
    other_edge_counts(files);
    bad_earlier_degrees(files);
    bad_earlier_offsets(files);
    claimed(files);
    hidden(files);
    order_of_refusals(files);
    chance(files);
}

const fn range(offset: u64, length: u64) -> Range {
    Range { offset, length }
}

/// The key of each of the five groups, and its degree.
fn five_keys() -> Vec<(Id, u64)> {
    let groups = five_groups().into_iter();
    groups.map(|g| (g.key, g.edges.len() as u64)).collect()
}

fn sound_files(files: &mut Files) {
    every_key(
        files,
        "indexed",
        five_with_starts(&FIVE_STARTS),
        five_groups(),
    );
    every_key(files, "full-indexed", full_indexed(), three_groups());
    let first = full().with(|l| {
        let starts = groups::starts(&three_groups());
        l.sections.insert(0, starts.gap([1, 2, 3]));
    });
    every_key(files, "indexed-first-after-gap", first, three_groups());
    let wide = groups::layout(&five_groups(), 48).with(|l| {
        l.header.minor = 200;
        l.sections.insert(2, groups::start_index(&FIVE_STARTS));
    });
    every_key(files, "indexed-48-bits-minor-200", wide, five_groups());
    let no_keys = groups::layout(&[], 24).with(|l| l.sections.push(groups::start_index(&[0])));
    every_key(files, "indexed-no-keys", no_keys, Vec::new());
    let one = one_edge().with(|l| l.sections.push(groups::start_index(&[0, 1])));
    let file = files.layout("indexed-one-edge", &one);
    let record = LentRecord::of_layout(&one);
    file.both("key", ask(id_of(1, 2)), found(1, 0));
    file.both("record", ask(id_of(1, 2)).by(&record), found(1, 0));
}

/// As many keys as our writer first makes an index for.
fn many_keys(files: &mut Files) {
    let layout = indexed_1025_keys();
    let file = files.layout("starts-of-1025-keys", &layout);
    let own = LentRecord::of_layout(&layout);
    for (i, key) in [0, 1, 511, 1_023, 1_024].map(|i| (i, id_of(1, i))) {
        file.both(format!("key-{i}"), ask(key), found(1, i));
        file.both(format!("record-{i}"), ask(key).by(&own), found(1, i));
        let hidden = own.without_starts();
        file.full(format!("hidden-{i}"), ask(key).by(&hidden), found(1, i));
    }
    file.both("absent", ask(id_of(1, 1_025)), Intended::Absent);
    file.groups = Some(single_groups(1_025));
}

/// Indexes that rise from 0 to the edge count and say something else than the
/// degrees: the groups whose two entries disagree have lost their place, and
/// others have another one. Without the index all is as it was.
fn disagreeing(files: &mut Files) {
    for (word, starts, lost) in [
        ("1-lower", [0, 1, 3, 6, 7, 9], &[0, 1][..]),
        ("2-higher", [0, 2, 4, 6, 7, 9], &[1, 2]),
        ("3-lower", [0, 2, 3, 5, 7, 9], &[2, 3]),
        ("4-higher", [0, 2, 3, 6, 8, 9], &[3, 4]),
        ("1-and-2-lower", [0, 1, 2, 6, 7, 9], &[0, 2]),
        ("1-to-4-lower", [0, 1, 2, 5, 6, 9], &[0, 4]),
        ("1-to-4-higher", [0, 3, 4, 7, 8, 9], &[0, 4]),
        ("all", [0, 1, 4, 5, 8, 9], &[0, 1, 2, 3, 4]),
    ] {
        let layout = five_with_starts(&starts);
        let own = LentRecord::of_layout(&layout);
        let file = files.layout(format!("index-{word}"), &layout);
        for (index, (key, degree)) in (0..).zip(five_keys()) {
            let name = |what: &str| format!("{what}-{index}");
            for (what, question) in [("key", ask(key)), ("record", ask(key).by(&own))] {
                match lost.contains(&index) {
                    true => file.misplaced(name(what), question, degree, index),
                    false => file.both(name(what), question, found(degree, index)),
                }
            }
            let hidden = ask(key).by(&own.without_starts());
            file.both(name("hidden"), hidden, found(degree, index));
        }
    }
}

/// The file of the five groups with these numbers in a skipped section, and the
/// record that takes them for the start index.
fn five_and_numbers(numbers: &[u64; 6]) -> (Layout, LentRecord) {
    let layout = groups::layout(&five_groups(), 24);
    let at = layout.footer_place();
    let mut section = groups::start_index(numbers);
    section.kind = kind::START_INDEX + 1;
    let layout = layout.with(|l| l.sections.push(section));
    let record = LentRecord::of_layout(&layout).with(|r| {
        (r.starts, r.indexed) = (range(at, 48), true);
    });
    (layout, record)
}

const MOST: u64 = u64::MAX;

/// A group, its two entries in the index of a record, and whether it is found
/// there.
const PAIRS: [(&str, usize, u64, u64, bool); 27] = [
    // Any place that ends in time.
    ("right", 2, 3, 6, true),
    ("from-0", 2, 0, 3, true),
    ("to-the-count", 2, 6, 9, true),
    ("last-elsewhere", 4, 0, 2, true),
    ("first-elsewhere", 0, 7, 9, true),
    // The difference is another.
    ("one-more", 2, 3, 7, false),
    ("one-less", 2, 3, 5, false),
    ("none", 2, 3, 3, false),
    ("falls", 2, 6, 3, false),
    ("falls-to-0", 2, 3, 0, false),
    ("first-one-less", 0, 0, 1, false),
    ("last-one-more", 4, 6, 9, false),
    // The end is above the edge count.
    ("end-10", 2, 7, 10, false),
    ("last-end-10", 4, 8, 10, false),
    ("begins-at-count", 0, 9, 11, false),
    ("end-256-more", 2, 256 + 3, 256 + 6, false),
    ("32-bits-more", 2, 1 << 32, (1 << 32) + 3, false),
    ("61-bits-more", 2, 1 << 61, (1 << 61) + 3, false),
    ("63-bits-more", 2, 1 << 63, (1 << 63) + 3, false),
    ("to-the-most", 2, MOST - 3, MOST, false),
    // The sum comes round to the end in 64 bits, or in 32.
    ("round-to-0", 2, MOST - 2, 0, false),
    ("round-to-1", 2, MOST - 1, 1, false),
    ("round-to-2", 2, MOST, 2, false),
    ("first-round-to-0", 0, MOST - 1, 0, false),
    ("32-bits-begin", 2, (1 << 32) + 3, 6, false),
    ("32-bits-end", 2, 3, (1 << 32) + 6, false),
    ("round-in-32-bits", 2, (1 << 32) - 2, 1, false),
];

/// What the record's index says of one group. The other entries are such as no
/// file has.
fn numbers_by_record(files: &mut Files) {
    for (word, index, begin, end, is_found) in PAIRS {
        let mut numbers = [MOST; 6];
        (numbers[index], numbers[index + 1]) = (begin, end);
        let (layout, record) = five_and_numbers(&numbers);
        let file = files.layout(format!("starts-{word}"), &layout);
        let (key, degree) = five_keys()[index];
        let index = index as u64;
        match is_found {
            true => file.both("index", ask(key).by(&record), found(degree, index)),
            false => file.misplaced("index", ask(key).by(&record), degree, index),
        }
        file.both("own", ask(key), found(degree, index));
    }
}

/// Records of fewer and of more edges than the file has, with the right index.
fn other_edge_counts(files: &mut Files) {
    let (layout, own) = five_and_numbers(&FIVE_STARTS);
    let file = files.layout("index-edges", &layout);
    for edge_count in [0, 1, 2, 3, 5, 6, 7, 8, 9, 10] {
        let record = own.with(|r| {
            r.edge_count = edge_count;
            r.fit();
        });
        for (index, (key, degree)) in (0..).zip(five_keys()) {
            let question = ask(key).by(&record);
            let name = format!("{edge_count}-key-{index}");
            match FIVE_STARTS[index as usize + 1] <= edge_count {
                true => file.full(name, question, found(degree, index)),
                false => file.full(name, question, expect(19, index)),
            }
        }
    }
}

/// So many groups of one partner.
fn singles(count: u8) -> Vec<Vec<u8>> {
    (0..count).map(|i| single(i, u64::from(i))).collect()
}

/// Twelve groups, one of which has a bad degree or one that is not as the index
/// says. By the index all others are found; by the sum those after it are not.
fn bad_earlier_degrees(files: &mut Files) {
    for (name, at, bytes, fault) in [
        ("zero-at-0", 0, &[0x00][..], faulty(28, 0, 0)),
        ("long-at-5", 5, &[0x81, 0x00], faulty(34, 0, 5)),
        ("large-at-7", 7, &[0xFF; 11], faulty(35, 0, 7)),
        ("cut-at-10", 10, &[0x80], faulty(33, 0, 10)),
        ("nine-at-3", 3, &[0x09], faulty(31, 1, 3)),
        (
            "many-at-4",
            4,
            b"\xFF\xFF\xFF\xFF\xFF\xFF\xFF\xFF\xFF\x01",
            faulty(31, 10, 4),
        ),
    ] {
        let mut groups = singles(12);
        groups[at as usize] = bytes.to_vec();
        let starts: Vec<u64> = (0..=12).collect();
        let layout = raw::layout(&groups, 12, 32);
        let layout = layout.with(|l| l.sections.push(groups::start_index(&starts)));
        let own = LentRecord::of_layout(&layout);
        let file = files.layout(format!("indexed-{name}"), &layout);
        for index in BTreeSet::from([0, 1, at.max(1) - 1, at, at + 1, 11]) {
            let answer = if index == at { fault } else { found(1, index) };
            let question = ask(raw::key(index));
            file.both(format!("key-{index}"), question.clone(), answer);
            let hidden = question.clone().by(&own.without_starts());
            let name = format!("hidden-{index}");
            match index > at {
                true => file.misplaced(name, hidden, 1, index),
                false => file.both(name, hidden, answer),
            }
        }
        file.both("record", ask(raw::key(11)).by(&own), found(1, 11));
    }
}

/// Four groups, and offsets of earlier ones that fall or pass the partners: the
/// file does not open, but by a record with the index the last is found.
fn bad_earlier_offsets(files: &mut Files) {
    for (word, at, offset, told) in [
        ("fall", 1, 40, 2),
        ("pass", 1, 1_000, 2),
        ("equal", 2, 11, 2),
    ] {
        let layout = raw::layout(&singles(4), 4, 24).with(|l| {
            l.sections.push(groups::start_index(&[0, 1, 2, 3, 4]));
            set_offset(l, at, offset);
        });
        let own = LentRecord::of_layout(&layout);
        let file = files.layout(format!("indexed-offsets-{word}"), &layout);
        let last = ask(raw::key(3));
        file.both("file", last.clone(), expect(14, told));
        file.both("record", last.clone().by(&own), found(1, 3));
        file.misplaced("hidden", last.by(&own.without_starts()), 1, 3);
    }
}

/// Records that take other bytes of the file for a start index.
fn claimed(files: &mut Files) {
    // The first log numbers are the starts.
    let layout = groups::layout(&five_groups(), 24).with(|l| {
        let logs = FIVE_STARTS.iter().chain(&[1, 2, 3]);
        l.section(kind::LOGS).bytes = logs.flat_map(|n| n.to_le_bytes()).collect();
    });
    let own = LentRecord::of_layout(&layout);
    let file = files.layout("claimed-index", &layout);
    let size = file.size();
    let claim = |at: u64| own.with(|r| (r.starts, r.indexed) = (range(at, 48), true));
    for (index, (key, degree)) in (0..).zip(five_keys()) {
        let ask_at = |at: u64| ask(key).by(&claim(at));
        let name = |what: &str| format!("{what}-{index}");
        let answer = found(degree, index);
        file.both(name("in-the-logs"), ask_at(own.logs.offset), answer);
        // The header has no such numbers.
        file.misplaced(name("in-the-header"), ask_at(0), degree, index);
        for (what, at) in [
            ("a-byte-late", own.logs.offset + 1),
            ("an-entry-late", own.logs.offset + 8),
            ("in-the-keys", own.keys.offset),
            ("to-the-end", size - 48),
        ] {
            file.full(name(what), ask_at(at), None);
            file.alone(name(what), ask_at(at), answer);
        }
    }
    let key = five_keys()[0].0;
    let past = ask(key).by(&claim(size - 47));
    file.both("past-the-end", past, expect(21, 0));
    let nothing = own.with(|r| r.indexed = true);
    file.both("of-nothing", ask(key).by(&nothing), expect(21, 0));
}

/// A record that says it has no index may carry any numbers there.
fn hidden(files: &mut Files) {
    let layout = five_with_starts(&FIVE_STARTS);
    let own = LentRecord::of_layout(&layout);
    let file = files.layout("hidden-index", &layout);
    let size = file.size();
    for (word, starts) in [
        ("zeros", range(0, 0)),
        ("right", own.starts),
        ("past-the-file", range(size, 48)),
        ("past-by-one", range(size - 47, 48)),
        ("longer", range(own.starts.offset, 49)),
        ("shorter", range(own.starts.offset, 40)),
        ("largest", range(u64::MAX, u64::MAX)),
        ("round", range(u64::MAX, 48)),
    ] {
        let record = own.with(|r| (r.starts, r.indexed) = (starts, false));
        for (index, (key, degree)) in (0..).zip(five_keys()).step_by(2) {
            let name = format!("{word}-{index}");
            file.both(name, ask(key).by(&record), found(degree, index));
        }
    }
}

/// A group's own faults, then 19, then 20.
fn order_of_refusals(files: &mut Files) {
    let two = group(2, &[SPLIT, &halves(3, 1), &halves(1, 1)]);
    let groups = [vec![0x00], two, group(2, &[&[0x07]]), single(1, 1)];
    let layout = raw::layout(&groups, 4, 24);
    let layout = layout.with(|l| l.sections.push(groups::start_index(&[0, 1, 2, 3, 4])));
    let record = LentRecord::of_layout(&layout);
    let file = files.layout("indexed-order", &layout);
    for (word, by_record) in [("file", false), ("record", true)] {
        let ask = |index: u64, rooms: Rooms| {
            let question = ask(raw::key(index)).rooms(rooms);
            match by_record {
                true => question.by(&record),
                false => question,
            }
        };
        let name = |what: &str| format!("{what}-{word}");
        file.full(name("19-before-20"), ask(1, Rooms::NONE), expect(19, 1));
        file.alone(name("20-without-19"), ask(1, Rooms::NONE), expect(20, 2));
        file.misplaced(name("19-with-room"), ask(1, Rooms::exact(2)), 2, 1);
        let (tag, degree) = (faulty(16, 1, 2), faulty(28, 0, 0));
        file.both(name("16-before-19"), ask(2, Rooms::NONE), tag);
        file.both(name("28-before-19"), ask(0, Rooms::NONE), degree);
        file.both(name("20-at-the-last"), ask(3, Rooms::NONE), expect(20, 1));
        file.both(
            name("room-at-the-last"),
            ask(3, Rooms::exact(1)),
            found(1, 3),
        );
    }
}

/// An index anywhere in the file, and one of which a byte is changed. Nobody has
/// said what becomes of them.
fn chance(files: &mut Files) {
    let mut random = Random::new(23);
    let layout = five_with_starts(&FIVE_STARTS);
    let own = LentRecord::of_layout(&layout);
    let file = files.layout("chance-index", &layout);
    for count in 0..40 {
        let (key, _) = five_keys()[random.below(5) as usize];
        let at = random.below(file.size() - 48);
        let record = own.with(|r| r.starts.offset = at);
        file.both(count, ask(key).by(&record), None);
    }
    for count in 0..20 {
        changed_index(files, count, &mut random);
    }
}

fn changed_index(files: &mut Files, count: u64, random: &mut Random) {
    let mut numbers = FIVE_STARTS;
    let at = random.below(6) as usize;
    numbers[at] = match random.below(4) {
        0 => numbers[at].wrapping_add(1),
        1 => numbers[at].wrapping_sub(1),
        2 => numbers[at] ^ 1 << random.below(64),
        _ => random.number(),
    };
    let (layout, record) = five_and_numbers(&numbers);
    let file: &mut LookupFile = files.layout(format!("chance-index-{count}"), &layout);
    for (index, (key, _)) in five_keys().into_iter().enumerate() {
        file.full(format!("key-{index}"), ask(key).by(&record), None);
    }
}
