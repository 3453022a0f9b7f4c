//! Refusal 19: the degrees of earlier groups and the edge count.

use super::raw::{self, group, halves, single, SPLIT};
use super::{ask, expect, faulty, found, Files, LentRecord, LookupFile, Question, Rooms};
use crate::numbers::Id;
use std::cmp::Ordering;

pub fn add(files: &mut Files) {
    edge_counts(files);
    sums_that_wrap(files);
    sums_near_the_edge_count(files);
    one_bad_degree(files);
    degrees_alone(files);
    order_of_refusals(files);
}

fn two(lower: u64) -> Vec<u8> {
    group(2, &[SPLIT, &halves(3, lower), &halves(1, lower)])
}

/// So many groups of one partner.
fn singles(count: u8) -> Vec<Vec<u8>> {
    (0..count).map(|i| single(i, u64::from(i))).collect()
}

/// Degrees 2, 1 and 2 under every edge count that opening lets pass, and under
/// smaller ones by record.
fn edge_counts(files: &mut Files) {
    let groups = [two(1), single(4, 4), two(9)];
    for edge_count in [3, 4, 5, 6, 7, 100] {
        let layout = raw::layout(&groups, edge_count, 24);
        let file = files.layout(format!("edges-{edge_count}"), &layout);
        each_of_2_1_2(file, "key", edge_count, ask);
    }
    let layout = raw::layout(&groups, 5, 24);
    let file = files.layout("edges-by-record", &layout);
    for edge_count in 0..=6 {
        let record = LentRecord::of_layout(&layout).with(|record| {
            record.edge_count = edge_count;
            // The log numbers lie where there is room for one more.
            record.logs.offset -= 8;
            record.fit();
        });
        let name = format!("{edge_count}-key");
        each_of_2_1_2(file, &name, edge_count, |key| ask(key).by(&record));
    }
}

/// The keys of degrees 2, 1 and 2. Those whose edges go past the edge count
/// have lost their place.
fn each_of_2_1_2(
    file: &mut LookupFile,
    name: &str,
    edge_count: u64,
    question: impl Fn(Id) -> Question,
) {
    for (index, degree, end) in [(0, 2, 2), (1, 1, 3), (2, 2, 5)] {
        let name = format!("{name}-{index}");
        let question = question(raw::key(index));
        if end <= edge_count {
            file.both(name, question, found(degree, index));
        } else {
            file.misplaced(name, question, degree, index);
        }
    }
}

/// Earlier degrees whose sum comes round to a small number in 64 or 32 bits,
/// or is negative there.
const DEGREES_THAT_WRAP: [(&str, &[u64]); 16] = [
    ("63-63", &[1 << 63, 1 << 63]),
    ("most-1", &[u64::MAX, 1]),
    ("most-2", &[u64::MAX, 2]),
    ("most", &[u64::MAX]),
    ("most-but-1", &[u64::MAX - 1]),
    ("most-most", &[u64::MAX, u64::MAX]),
    ("most-most-4", &[u64::MAX, u64::MAX, 4]),
    ("1-most", &[1, u64::MAX]),
    ("62-four-times", &[1 << 62; 4]),
    ("63-and-63-less-1", &[(1 << 63) - 1, 1 << 63]),
    ("32-less-1", &[(1 << 32) - 1]),
    ("32", &[1 << 32]),
    ("32-and-1", &[(1 << 32) + 1]),
    ("31-31", &[1 << 31, 1 << 31]),
    ("26", &[1 << 26]),
    ("9", &[9]),
];

/// The groups behind these degrees are not looked at.
fn sums_that_wrap(files: &mut Files) {
    for (name, degrees) in DEGREES_THAT_WRAP {
        let mut groups: Vec<Vec<u8>> = degrees.iter().map(|&d| group(d, &[])).collect();
        let last = groups.len() as u64;
        groups.push(single(5, 1));
        groups.push(single(5, 2));
        let layout = raw::layout(&groups, 9, 24);
        let file = files.layout(format!("sum-{name}"), &layout);
        let record = LentRecord::of_layout(&layout);
        file.misplaced("last", ask(raw::key(last)), 1, last);
        file.misplaced("by-record", ask(raw::key(last)).by(&record), 1, last);
        file.misplaced("next", ask(raw::key(last + 1)), 1, last + 1);
    }
}

/// The degree before it leaves just enough, or one too few.
fn sums_near_the_edge_count(files: &mut Files) {
    for (name, degree) in [("8", 8), ("7", 7)] {
        let layout = raw::layout(&[group(degree, &[b"any"]), single(5, 1)], 9, 24);
        let file = files.layout(format!("sum-{name}"), &layout);
        file.both("last", ask(raw::key(1)), found(1, 1));
    }
    let layout = raw::layout(&[group(8, &[b"any"]), two(1)], 9, 24);
    let file = files.layout("sum-8-two", &layout);
    file.misplaced("last", ask(raw::key(1)), 2, 1);
}

/// Twelve groups, one of which has a bad degree: the ones before it are as
/// they were, the ones after it have lost their place.
fn one_bad_degree(files: &mut Files) {
    for (name, at, bytes, number) in [
        ("zero-at-0", 0, &[0x00][..], 28),
        ("zero-at-6", 6, &[0x00], 28),
        ("long-at-5", 5, &[0x81, 0x00], 34),
        ("large-at-7", 7, &[0xFF; 11], 35),
        ("cut-at-10", 10, &[0x80], 33),
        ("cut-at-11", 11, &[0x80], 33),
    ] {
        let mut groups = singles(12);
        groups[at as usize] = bytes.to_vec();
        let layout = raw::layout(&groups, 12, 32);
        let file = files.layout(format!("twelve-{name}"), &layout);
        for index in 0..12 {
            let question = ask(raw::key(index));
            let name = format!("key-{index}");
            match index.cmp(&at) {
                Ordering::Less => file.both(name, question, found(1, index)),
                Ordering::Equal => file.both(name, question, faulty(number, 0, index)),
                Ordering::Greater => file.misplaced(name, question, 1, index),
            }
        }
    }
}

/// An unknown tag and a payload of any sort do not matter behind a degree.
fn degrees_alone(files: &mut Files) {
    let mut groups = singles(5);
    groups[1] = group(3, &[]);
    groups[3] = group(2, &[&[0xFF; 20]]);
    let layout = raw::layout(&groups, 8, 24);
    let file = files.layout("degrees-alone", &layout);
    let answers = [
        found(1, 0),
        faulty(31, 1, 1),
        found(1, 2),
        faulty(16, 1, 3),
        found(1, 4),
    ];
    for (index, answer) in (0..).zip(answers) {
        file.both(format!("key-{index}"), ask(raw::key(index)), answer);
    }
}

/// A group's own faults, then 19, then 20.
fn order_of_refusals(files: &mut Files) {
    let groups = [vec![0x00], two(1), group(2, &[&[0x07]]), single(1, 1)];
    let layout = raw::layout(&groups, 4, 24);
    let file = files.layout("order", &layout);
    let record = LentRecord::of_layout(&layout);
    for (word, by_record) in [("file", false), ("record", true)] {
        let ask = |index: u64, rooms: Rooms| {
            let question = ask(raw::key(index)).rooms(rooms);
            if by_record {
                question.by(&record)
            } else {
                question
            }
        };
        let name = |what: &str| format!("{what}-{word}");
        file.full(name("19-before-20"), ask(1, Rooms::NONE), expect(19, 1));
        file.alone(name("20-without-19"), ask(1, Rooms::NONE), expect(20, 2));
        file.full(name("19-with-room"), ask(1, Rooms::exact(2)), expect(19, 1));
        file.alone(name("room"), ask(1, Rooms::exact(2)), found(2, 1));
        let (tag, degree) = (faulty(16, 1, 2), faulty(28, 0, 0));
        file.both(name("16-before-all"), ask(2, Rooms::NONE), tag);
        file.both(name("28-before-20"), ask(0, Rooms::NONE), degree);
        file.full(name("19-at-the-last"), ask(3, Rooms::NONE), expect(19, 3));
        file.alone(name("20-at-the-last"), ask(3, Rooms::NONE), expect(20, 1));
    }
}
