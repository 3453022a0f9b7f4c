//! Refusals 16 and 28 to 35: the faults within a group, and what a faulty group
//! means for the groups before and after it.

use super::raw::{self, group, halves, single, DENSE, SPLIT};
use super::{ask, found, Files, Intended, LentRecord, LookupFile, Rooms};
use crate::corpus::bad_groups::{self, BadGroup};
use crate::numbers::id_of;

/// So many bad groups lie in one file.
const AT_ONCE: usize = 30;
/// Longer groups are left out there.
const SHORT: usize = 100;

pub fn add(files: &mut Files) {
    let mut bad = bad_groups::all();
    for (bad, full) in bad.iter().zip([true, false].into_iter().cycle()) {
        only(files, bad);
        between(files, bad, full);
    }
    bad.retain(|bad| bad.bytes.len() <= SHORT);
    for (count, bad) in bad.chunks(AT_ONCE).enumerate() {
        many(files, count as u64, bad);
    }
}

fn expect(bad: &BadGroup, index: u64) -> Intended {
    Intended::Refused(bad.refusal(index))
}

/// The group alone in its file, so that it ends with the partner section. No
/// room is lent: the group's faults come before that.
fn only(files: &mut Files, bad: &BadGroup) {
    let layout = raw::layout(std::slice::from_ref(&bad.bytes), 3, 24);
    let file = files.layout(format!("only-{}", bad.name), &layout);
    file.checked = Some(bad.refusal(0));
    let question = ask(raw::key(0)).rooms(Rooms::NONE);
    file.both("key", question, expect(bad, 0));
}

/// The group between two right ones. Nothing of it matters for the one before
/// it, its degree alone for the one after it. It is asked in full on the file
/// and for its partners alone by the record, or the other way round.
fn between(files: &mut Files, bad: &BadGroup, full: bool) {
    let before = group(2, &[SPLIT, &halves(5, 1), &halves(0, 2)]);
    // Its beginning would end a varint that the group before it leaves open.
    let after = group(1, &[DENSE, &id_of(6, 7)]);
    let counted = bad.degree.filter(|&degree| degree <= 100);
    let edge_count = counted.map_or(9, |degree| 2 + degree + 1);
    let layout = raw::layout(&[before, bad.bytes.clone(), after], edge_count, 24);
    let file = files.layout(format!("bad-{}", bad.name), &layout);
    file.checked = Some(bad.refusal(1));
    let record = LentRecord::of_layout(&layout);

    let itself = ask(raw::key(1));
    let by_record = itself.clone().by(&record);
    if full {
        file.full("before", ask(raw::key(0)), found(2, 0));
        file.full("itself", itself, expect(bad, 1));
        file.alone("by-record", by_record, expect(bad, 1));
    } else {
        file.alone("itself", itself, expect(bad, 1));
        file.full("by-record", by_record, expect(bad, 1));
    }
    let after = ask(raw::key(2));
    if counted.is_some() {
        file.both("after", after, found(1, 2));
    } else {
        file.misplaced("after", after, 1, 2);
    }
}

/// Many bad groups, and a right one after each two of them: each tells its own
/// fault. The first file begins with a bad group, each next one with a right
/// one more; all end with a bad one.
fn many(files: &mut Files, count: u64, bad: &[BadGroup]) {
    let right = || single(5, 1);
    let mut groups: Vec<Vec<u8>> = (0..count).map(|_| right()).collect();
    let mut faults = Vec::new();
    for (i, bad) in bad.iter().enumerate() {
        if i > 0 && i % 2 == 0 {
            groups.push(right());
        }
        faults.push((groups.len() as u64, bad));
        groups.push(bad.bytes.clone());
    }
    let layout = raw::layout(&groups, groups.len() as u64, 32);
    let file = files.layout(format!("many-{count}"), &layout);
    file.checked = Some(faults[0].1.refusal(count));
    let record = LentRecord::of_layout(&layout);
    for (index, bad) in faults {
        in_turns(file, index, &record, expect(bad, index));
    }
    for (index, bytes) in (0..).zip(&groups) {
        if *bytes == right() {
            file.alone(index, ask(raw::key(index)), found(1, index));
        }
    }
}

/// All four sorts of calls take turns, with room and without.
fn in_turns(file: &mut LookupFile, index: u64, record: &LentRecord, intended: Intended) {
    let turn = file.calls.len();
    let question = ask(raw::key(index)).rooms([Rooms::more(4), Rooms::NONE][turn / 4 % 2]);
    match turn % 4 {
        0 => file.full(index, question, intended),
        1 => file.alone(index, question.by(record), intended),
        2 => file.alone(index, question, intended),
        _ => file.full(index, question.by(record), intended),
    }
}
