//! Refusal 21: records in which one field is another number.

use super::{ask, expect, found, Files, LentRecord, LookupFile};
use crate::corpus::open_files::samples::{full, full_indexed, one_edge, three_groups};
use crate::groups;
use crate::layout::Layout;
use crate::numbers::{id_of, Id};
use crate::open::Range;
use std::collections::BTreeSet;

pub fn add(files: &mut Files) {
    one_field(files, "edge", one_edge(), &[id_of(1, 2)]);
    let keys = [id_of(1, 2), id_of(1, 3), id_of(2, 0)];
    one_field(files, "full", full(), &keys);
    let layout = groups::layout(&three_groups(), 48);
    one_field(files, "three48", layout, &keys);
    one_field(files, "indexed", full_indexed(), &keys);
    lengths_that_agree(files);
}

type RangeOf = fn(&mut LentRecord) -> &mut Range;

const RANGES: [(&str, RangeOf); 6] = [
    ("keys", |record| &mut record.keys),
    ("offsets", |record| &mut record.offsets),
    ("partners", |record| &mut record.partners),
    ("logs", |record| &mut record.logs),
    ("dead", |record| &mut record.dead),
    ("starts", |record| &mut record.starts),
];

/// Numbers that a slip would take for this one.
fn others(number: u64) -> Vec<u64> {
    vec![
        0,
        1,
        number.wrapping_sub(1),
        number.wrapping_add(1),
        1 << 32,
        number | 1 << 32,
        1 << 63,
        number | 1 << 63,
        u64::MAX,
        u64::MAX - 1,
    ]
}

fn one_field(files: &mut Files, name: &str, layout: Layout, keys: &[Id]) {
    let mut fields = Fields {
        file: files.layout(format!("field-{name}"), &layout),
        own: LentRecord::of_layout(&layout),
        keys,
    };
    for range in RANGES {
        fields.starts(range);
        fields.lengths(range);
    }
    fields.key_counts();
    fields.edge_counts();
    fields.offset_bits();
    fields.mark();
    fields.index_mark();
}

/// A file, its own record, and the keys that are asked for.
struct Fields<'a> {
    file: &'a mut LookupFile,
    own: LentRecord,
    keys: &'a [Id],
}

impl Fields<'_> {
    /// A range that begins elsewhere.
    fn starts(&mut self, (word, range_of): (&str, RangeOf)) {
        let size = self.file.size();
        let Range { offset, length } = *range_of(&mut self.own);
        let asked = self.is_asked(word);
        let mut starts = others(offset);
        starts.extend([
            // The range ends with the file, or a byte later, or begins there.
            size - length,
            size - length + 1,
            size,
            size + 1,
            // The sum with the length comes round to 0, 1 and the start.
            0u64.wrapping_sub(length),
            1u64.wrapping_sub(length),
            offset.wrapping_sub(length),
        ]);
        self.each(&format!("{word}-start"), offset, starts, |record, start| {
            range_of(record).offset = start;
            let end = u128::from(start) + u128::from(length);
            asked && end > u128::from(size)
        });
    }

    /// A range of another length. Only that of the partners is not given by
    /// the counts.
    fn lengths(&mut self, (word, range_of): (&str, RangeOf)) {
        let size = self.file.size();
        let Range { offset, length } = *range_of(&mut self.own);
        let asked = self.is_asked(word);
        let fixed = word != "partners";
        let mut lengths = others(length);
        lengths.extend([
            length.wrapping_sub(8),
            length.wrapping_add(8),
            size - offset,
            size - offset + 1,
            size,
            0u64.wrapping_sub(offset),
            1u64.wrapping_sub(offset),
            length.wrapping_sub(offset),
        ]);
        let field = format!("{word}-length");
        self.each(&field, length, lengths, |record, length| {
            range_of(record).length = length;
            let end = u128::from(offset) + u128::from(length);
            asked && (fixed || end > u128::from(size))
        });
    }

    /// The range of tombstones has no meaning if the record is not marked, that of
    /// the start index none if it is not indexed.
    fn is_asked(&self, word: &str) -> bool {
        match word {
            "dead" => self.own.marked,
            "starts" => self.own.indexed,
            _ => true,
        }
    }

    fn key_counts(&mut self) {
        let own = self.own.key_count;
        let mut counts = others(own);
        counts.extend([1 << 24, (1 << 24) + 1, 1 << 60, own | 1 << 60]);
        self.each("key-count", own, counts, |record, count| {
            record.key_count = count;
            true
        });
    }

    fn edge_counts(&mut self) {
        let own = self.own.edge_count;
        let mut counts = others(own);
        counts.extend([1 << 26, (1 << 26) + 1, 1 << 61, own | 1 << 61]);
        // One byte of tombstones for all of these, but other log numbers.
        counts.extend([2, 6, 8, 9]);
        self.each("edge-count", own, counts, |record, count| {
            record.edge_count = count;
            true
        });
    }

    fn offset_bits(&mut self) {
        let own = u64::from(self.own.offset_bits);
        let bits = [
            0, 1, 8, 16, 23, 24, 25, 31, 32, 33, 40, 48, 56, 64, 128, 152, 255,
        ];
        self.each("bits", own, bits.to_vec(), |record, bits| {
            record.offset_bits = bits as u8;
            true
        });
    }

    /// A mark where there is no range gives that range a wrong length; no mark
    /// where there is one is lawful.
    fn mark(&mut self) {
        let own = u64::from(self.own.marked);
        self.each("marked", own, vec![0, 1], |record, mark| {
            record.marked = mark == 1;
            record.marked
        });
    }

    /// The same of the start index.
    fn index_mark(&mut self) {
        let own = u64::from(self.own.indexed);
        self.each("indexed", own, vec![0, 1], |record, mark| {
            record.indexed = mark == 1;
            record.indexed
        });
    }

    /// The record with each of these numbers in a field of another number.
    /// `set` says of each whether it is to be refused.
    fn each(
        &mut self,
        field: &str,
        right: u64,
        numbers: Vec<u64>,
        set: impl Fn(&mut LentRecord, u64) -> bool,
    ) {
        let numbers: BTreeSet<u64> = numbers.into_iter().filter(|&n| n != right).collect();
        for (turn, number) in numbers.into_iter().enumerate() {
            let mut record = self.own.clone();
            let refused = set(&mut record, number);
            let name = format!("{field}-{number}");
            let question = |key: Id| ask(key).by(&record);
            let (first, last) = (self.keys[0], self.keys[self.keys.len() - 1]);
            if refused {
                // Partners alone ask the same of a record.
                if field.starts_with("starts") {
                    self.file.both(name, question(last), expect(21, 0));
                    continue;
                }
                match turn % 2 {
                    0 => self.file.full(name, question(first), expect(21, 0)),
                    _ => self.file.alone(name, question(last), expect(21, 0)),
                }
                continue;
            }
            if field.starts_with("starts") && !record.indexed {
                self.file.both(name, question(last), None);
                continue;
            }
            for (index, &key) in self.keys.iter().enumerate() {
                let name = format!("{name}-key-{index}");
                self.file.full(name, question(key), None);
            }
            self.file.alone(name, question(last), None);
        }
    }
}

type Change = fn(&mut LentRecord);

/// Counts so large that the lengths they give come round to those that stand
/// there.
const PRODUCTS_THAT_WRAP: [(&str, Change); 7] = [
    ("keys-16-times", |r| {
        r.key_count = 1 << 60;
        r.keys.length = 0;
        r.offsets.length = 6;
    }),
    ("keys-16-times-and-1", |r| r.key_count |= 1 << 60),
    ("keys-and-1", |r| {
        r.key_count = u64::MAX;
        r.keys.length = 0u64.wrapping_sub(16);
        r.offsets.length = 0;
    }),
    ("edges-8-times", |r| {
        r.edge_count = 1 << 61;
        r.logs.length = 0;
    }),
    ("edges-8-times-and-1", |r| r.edge_count |= 1 << 61),
    ("edges-rounded-up", |r| {
        r.edge_count = u64::MAX;
        r.logs.length = 0u64.wrapping_sub(8);
        r.marked = true;
        r.dead.length = 0;
    }),
    ("starts-8-times", |r| {
        r.key_count = (1 << 61) - 1;
        r.starts.length = 0;
        r.indexed = true;
    }),
];

/// Offset bits that there are not, each with the length that it gives for two
/// offsets.
const OTHER_BITS: [(&str, u8, u64); 5] = [
    ("bits-rounded", 52, 13),
    ("bits-56", 56, 14),
    ("bits-64", 64, 16),
    ("bits-16", 16, 4),
    ("bits-0", 0, 0),
];

/// Records whose lengths are those that their counts and offset bits give, if
/// only in 64 bits: the counts, the bits or a place are wrong.
fn lengths_that_agree(files: &mut Files) {
    let layout = groups::layout(&three_groups()[1..2], 48);
    let own = LentRecord::of_layout(&layout);
    let file = files.layout("wrap", &layout);
    let key = id_of(1, 3);
    file.both("own", ask(key).by(&own), found(1, 0));
    let wrapping = PRODUCTS_THAT_WRAP.map(|(name, change)| (name, own.with(change)));
    let other_bits = OTHER_BITS.map(|(name, bits, length)| {
        let change = |r: &mut LentRecord| (r.offset_bits, r.offsets.length) = (bits, length);
        (name, own.with(change))
    });
    // No log numbers, just past the file or at the largest place.
    let empty = |name, place| {
        let record = own.with(|r| {
            (r.key_count, r.edge_count) = (0, 0);
            r.fit();
            r.logs.offset = place;
        });
        (name, record)
    };
    let empty = [
        empty("empty-past", layout.size() + 1),
        empty("empty-largest", u64::MAX),
    ];
    for (name, record) in wrapping.into_iter().chain(other_bits).chain(empty) {
        file.both(name, ask(key).by(&record), expect(21, 0));
    }
}
