//! Files and records changed by chance. The program's own lookup is all that
//! says what becomes of them.

use super::raw::{self, group, halves, single, DENSE, SPLIT};
use super::{ask, Files, LentRecord};
use crate::corpus::open_files::samples::full;
use crate::format::{kind, OFFSET_BITS};
use crate::layout::Layout;
use crate::numbers::{id_of, Id};
use crate::random::Random;

pub fn add(files: &mut Files) {
    let mut random = Random::new(7);
    partner_bytes(files, &mut random);
    offsets(files, &mut random);
    records(files, &mut random);
}

/// Five groups of both forms.
fn base() -> Layout {
    let groups = [
        single(5, 1),
        group(2, &[DENSE, &id_of(1, 2), &id_of(3, 4)]),
        group(3, &[SPLIT, &halves(0, 7), &halves(300, 6), &halves(0, 9)]),
        group(1, &[DENSE, &id_of(1 << 60, 8)]),
        group(2, &[SPLIT, &halves(1 << 62, 1), &halves(1, 0)]),
    ];
    raw::layout(&groups, 9, 24)
}

/// A byte of the partner section changed. Bytes that say how the others are to
/// be read are few, so half of the changes are made at the groups' beginnings.
fn partner_bytes(files: &mut Files, random: &mut Random) {
    let begins = [0, 11, 45, 75, 93];
    for count in 0..40 {
        let mut layout = base();
        let bytes = &mut layout.section(kind::PARTNERS).bytes;
        let at = match random.below(2) {
            0 => begins[random.below(5) as usize] + random.below(3) as usize,
            _ => random.below(bytes.len() as u64) as usize,
        };
        bytes[at] = match random.below(4) {
            0 => bytes[at].wrapping_add(1),
            1 => bytes[at] ^ 1 << random.below(8),
            2 => bytes[at] | 0x80,
            _ => random.byte(),
        };
        let file = files.layout(format!("chance-byte-{count}-at-{at}"), &layout);
        for index in 0..5 {
            file.both(format!("key-{index}"), ask(raw::key(index)), None);
        }
    }
}

/// Offsets that are those of other groups, or near them.
fn offsets(files: &mut Files, random: &mut Random) {
    for count in 0..20 {
        let mut layout = base();
        let bytes = &mut layout.section(kind::OFFSETS).bytes;
        for _ in 0..=random.below(2) {
            let from = 3 * random.below(6) as usize;
            let to = 3 * random.below(6) as usize;
            bytes.copy_within(from..from + 3, to);
            if random.below(3) == 0 {
                bytes[to] = bytes[to]
                    .wrapping_add(random.below(3) as u8)
                    .wrapping_sub(1);
            }
        }
        let file = files.layout(format!("chance-offsets-{count}"), &layout);
        let record = LentRecord::of_layout(&layout);
        file.full("file", ask(raw::key(2)), None);
        for index in 0..5 {
            let question = ask(raw::key(index)).by(&record);
            file.both(format!("record-{index}"), question, None);
        }
    }
}

/// Records whose lengths are as their counts give and of which some ranges lie
/// anywhere in the file. The key asked for is one that they hold.
fn records(files: &mut Files, random: &mut Random) {
    for (name, layout) in [("base", base()), ("full", full())] {
        let own = LentRecord::of_layout(&layout);
        let file = files.layout(format!("chance-record-{name}"), &layout);
        let bytes = file.bytes.clone();
        let size = bytes.len() as u64;
        for count in 0..90 {
            let mut record = own.clone();
            // Half of the records have right offsets, and so lead to groups.
            match random.below(4) {
                0 => record.partners.offset = random.below(size - record.partners.length),
                1 => {
                    record.offset_bits = OFFSET_BITS[random.below(4) as usize];
                    record.fit();
                    record.offsets.offset = random.below(size - record.offsets.length);
                    (record.partners.offset, record.partners.length) = (0, size);
                }
                _ => {
                    record.key_count = 1 + random.below(own.key_count);
                    record.edge_count = 1 + random.below(12);
                    record.fit();
                    record.keys.offset = random.below(size - record.keys.length);
                    record.logs.offset = random.below(size - record.logs.length);
                    record.dead.offset = random.below(size - record.dead.length);
                }
            }
            let index = random.below(record.key_count);
            let at = (record.keys.offset + 16 * index) as usize;
            let key: Id = bytes[at..at + 16].try_into().expect("16 bytes");
            file.both(count, ask(key).by(&record), None);
        }
    }
}
