//! Files that do not open: the one call tells the refusal of opening, whatever
//! is asked; a record looks past the faults that it does not say anything of.

use super::{ask, expect, found, Files, Intended, LentRecord, Rooms};
use crate::corpus::open_files::samples::{full, one_edge};
use crate::corpus::open_files::{self, Verdict};
use crate::groups;
use crate::layout::{Layout, Section};
use crate::numbers::id_of;
use std::collections::BTreeMap;

pub fn add(files: &mut Files) {
    heads_and_footers(files);
    reserved_kinds(files);
    files_of_opening(files);
    short_files(files);
}

/// One fault of each sort that no section has a part in.
fn heads_and_footers(files: &mut Files) {
    let record = LentRecord::of_layout(&one_edge());
    let mut damaged = |number: u8, place: u64, change: fn(&mut Layout)| {
        let file = files.layout(format!("refusal-{number}"), &one_edge().with(change));
        let present = ask(id_of(1, 2)).rooms(Rooms::exact(1));
        let absent = ask(id_of(1, 3)).rooms(Rooms::NONE);
        file.both("present", present.clone(), expect(number, place));
        file.both("absent", absent.clone(), expect(number, place));
        file.both("present-by-record", present.by(&record), found(1, 0));
        file.both("absent-by-record", absent.by(&record), Intended::Absent);
    };
    damaged(2, 0, |l| l.header.magic[0] ^= 1);
    damaged(3, 0, |l| l.header.major = 2);
    damaged(4, 0, |l| l.header.size = 65);
    damaged(5, 0, |l| l.header.flags = 1 << 31);
    damaged(6, 0, |l| l.tail_magic[7] = 1);
    damaged(7, 0, |l| l.footer_length = Some(38));
    damaged(8, 0, |l| l.footer_checksum = Some(0));
    damaged(9, 0, |l| l.section_count = Some(5));
    damaged(36, 4, |l| l.sections.push(Section::new(7, *b"new")));
    damaged(10, 3, |l| l.sections[3].codec = 1);
    damaged(11, 2, |l| l.sections[2].stated.offset = Some(63));
    damaged(12, 0, |l| l.edge_count = 0);
    damaged(37, 1, |l| l.sections.push(groups::start_index(&[0, 2])));
}

/// A reserved kind anywhere in the table, which a record says nothing of: the
/// lookups by it answer as ever.
fn reserved_kinds(files: &mut Files) {
    for (place, kind) in [(0, 7), (3, 0x0080), (8, 0x00FF)] {
        let new = Section::new(kind, *b"new").named(*b"later");
        let layout = full().with(|l| l.sections.insert(place, new));
        let record = LentRecord::of_layout(&layout);
        let file = files.layout(format!("reserved-kind-{kind}-in-full"), &layout);
        for (name, key, answer) in [
            ("key-0", id_of(1, 2), found(2, 0)),
            ("key-1", id_of(1, 3), found(1, 1)),
            ("key-2", id_of(2, 0), found(2, 2)),
            ("absent", id_of(1, 4), Intended::Absent),
        ] {
            file.both(name, ask(key), expect(36, place as u64));
            file.both(format!("{name}-by-record"), ask(key).by(&record), answer);
        }
    }
}

/// A few files of the corpus of opening for each refusal.
fn files_of_opening(files: &mut Files) {
    let mut taken: BTreeMap<u8, u32> = BTreeMap::new();
    for refused in open_files::small() {
        let Some(Verdict::Refused(refusal)) = refused.intended else {
            continue;
        };
        let count = taken.entry(refusal.number).or_default();
        *count += 1;
        if *count > 4 {
            continue;
        }
        let file = files.bytes(refused.name, refused.bytes);
        let answer = Intended::Refused(refusal);
        file.full("key", ask(id_of(1, 2)), answer);
        file.alone("key", ask(id_of(1, 0)).rooms(Rooms::NONE), answer);
    }
}

/// Files of no and of hardly any bytes, which are too short to open.
fn short_files(files: &mut Files) {
    let empty = one_edge().with(|l| (l.key_count, l.edge_count) = (0, 0));
    let record = LentRecord::of_layout(&empty).with(|record| {
        for range in [
            &mut record.keys,
            &mut record.offsets,
            &mut record.partners,
            &mut record.logs,
        ] {
            (range.offset, range.length) = (0, 0);
        }
        record.fit();
    });
    // A record of no keys still has one offset, of three bytes.
    for size in [0, 1, 2, 3, 83] {
        let file = files.bytes(format!("only-{size}-bytes"), vec![0; size]);
        let question = ask([0; 16]);
        file.both("file", question.clone(), expect(1, 0));
        let answer = if size < 3 {
            expect(21, 0)
        } else {
            Intended::Absent
        };
        file.both("record", question.by(&record), answer);
    }
}
