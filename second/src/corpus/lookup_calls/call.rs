//! One call: its bytes on standard input, its outcome, and the lines that tell
//! it.

use crate::corpus::fresh_output;
use crate::format::kind;
use crate::layout::Layout;
use crate::lookup::{self, Answer, Outputs};
use crate::numbers::{hex, Id};
use crate::open::{OpenedRecord, Range};
use crate::refusal::Refusal;
use crate::xxh3::xxh3_64;

/// The most bytes that a file of the corpus may have.
pub const LONGEST_FILE: usize = 262_144;

#[derive(Clone, Debug, PartialEq, Eq)]
pub struct Call {
    pub name: String,
    /// With log numbers and dead marks, or the partners alone.
    pub full: bool,
    pub key: Id,
    pub rooms: Rooms,
    /// In place of opening.
    pub record: Option<LentRecord>,
    /// The answer in the author's view; calls made by chance have none.
    pub intended: Option<Intended>,
}

/// An answer but for the count of compared keys, for which there is a check of
/// its own.
#[derive(Clone, Copy, Debug, PartialEq, Eq)]
pub enum Intended {
    Found { degree: u64, index: u64 },
    Absent,
    Refused(Refusal),
}

/// How much of each output is lent.
#[derive(Clone, Copy, Debug, PartialEq, Eq)]
pub struct Rooms {
    /// In bytes.
    pub partners: u32,
    pub logs: u32,
    pub marks: u32,
}

/// A record as a caller lends it.
#[derive(Clone, Debug, PartialEq, Eq)]
pub struct LentRecord {
    pub keys: Range,
    pub offsets: Range,
    pub partners: Range,
    pub logs: Range,
    /// Without meaning if the record is not marked.
    pub dead: Range,
    /// Whether there are tombstones.
    pub marked: bool,
    pub key_count: u64,
    pub edge_count: u64,
    pub offset_bits: u8,
    /// Without meaning if the record is not indexed.
    pub starts: Range,
    /// Whether there is a start index.
    pub indexed: bool,
}

/// Where a section is not there.
const NOWHERE: Range = Range {
    offset: 0,
    length: 0,
};

/// What the outputs hold.
#[derive(Clone, Debug, PartialEq, Eq)]
pub struct Buffers {
    pub partners: Vec<u8>,
    pub logs: Vec<u64>,
    pub marks: Vec<u8>,
}

#[derive(Clone, Debug, PartialEq, Eq)]
pub struct Outcome {
    pub answer: Result<Answer, Refusal>,
    pub buffers: Buffers,
}

impl Rooms {
    /// The most that a call of the corpus may lend.
    pub const MOST: Rooms = Rooms {
        partners: 65_536,
        logs: 4_096,
        marks: 4_096,
    };
    pub const NONE: Rooms = Rooms {
        partners: 0,
        logs: 0,
        marks: 0,
    };

    /// Just enough for this many partners.
    pub fn exact(degree: u32) -> Self {
        Rooms {
            partners: 16 * degree,
            logs: degree,
            marks: degree,
        }
    }

    /// More than enough, by another amount in each output.
    pub fn more(degree: u32) -> Self {
        Rooms {
            partners: 16 * degree + 5,
            logs: degree + 1,
            marks: degree + 2,
        }
    }

    /// Outputs of these lengths, filled with what each call finds in them.
    pub fn fresh(self) -> Buffers {
        Buffers {
            partners: fresh_output(self.partners as usize),
            logs: (0..u64::from(self.logs))
                .map(|i| 1_000_003 * i + 11)
                .collect(),
            marks: vec![0xAA; self.marks as usize],
        }
    }
}

impl LentRecord {
    pub fn of(record: &OpenedRecord) -> Self {
        LentRecord {
            keys: record.keys,
            offsets: record.offsets,
            partners: record.partners,
            logs: record.logs,
            dead: record.tombstones.unwrap_or(NOWHERE),
            marked: record.tombstones.is_some(),
            key_count: record.key_count,
            edge_count: record.edge_count,
            offset_bits: record.offset_bits,
            starts: record.starts.unwrap_or(NOWHERE),
            indexed: record.starts.is_some(),
        }
    }

    /// The record of the file that is laid out so, even if it does not open.
    pub fn of_layout(layout: &Layout) -> Self {
        let offsets = layout.offsets();
        let range = |kind: u16| {
            let index = layout.sections.iter().position(|s| s.kind == kind)?;
            Some(Range {
                offset: offsets[index],
                length: layout.sections[index].bytes.len() as u64,
            })
        };
        let required = |kind| range(kind).expect("a section of the kind");
        LentRecord::of(&OpenedRecord {
            keys: required(kind::KEYS),
            offsets: required(kind::OFFSETS),
            partners: required(kind::PARTNERS),
            logs: required(kind::LOGS),
            tombstones: range(kind::TOMBSTONES),
            key_count: layout.key_count,
            edge_count: layout.edge_count,
            offset_bits: layout.offset_bits,
            starts: range(kind::START_INDEX),
        })
    }

    /// This record with a change.
    pub fn with(&self, change: impl FnOnce(&mut LentRecord)) -> Self {
        let mut changed = self.clone();
        change(&mut changed);
        changed
    }

    /// Sets the lengths that the counts and the offset bits give.
    pub fn fit(&mut self) {
        self.keys.length = 16 * self.key_count;
        self.offsets.length = (self.key_count + 1) * u64::from(self.offset_bits / 8);
        self.logs.length = 8 * self.edge_count;
        self.dead.length = self.edge_count.div_ceil(8);
        self.starts.length = 8 * (self.key_count + 1);
    }

    /// This record as if the file had no start index.
    pub fn without_starts(&self) -> Self {
        self.with(|record| (record.starts, record.indexed) = (NOWHERE, false))
    }

    /// What the lookup takes.
    pub fn opened(&self) -> OpenedRecord {
        OpenedRecord {
            keys: self.keys,
            offsets: self.offsets,
            partners: self.partners,
            logs: self.logs,
            tombstones: self.marked.then_some(self.dead),
            key_count: self.key_count,
            edge_count: self.edge_count,
            offset_bits: self.offset_bits,
            starts: self.indexed.then_some(self.starts),
        }
    }

    fn input(&self) -> Vec<u8> {
        let ranges = [self.keys, self.offsets, self.partners, self.logs, self.dead];
        let mut input = Vec::new();
        for range in ranges {
            input.extend(range.offset.to_le_bytes());
            input.extend(range.length.to_le_bytes());
        }
        input.push(u8::from(self.marked));
        input.extend(self.key_count.to_le_bytes());
        input.extend(self.edge_count.to_le_bytes());
        input.push(self.offset_bits);
        input.extend(self.starts.offset.to_le_bytes());
        input.extend(self.starts.length.to_le_bytes());
        input.push(u8::from(self.indexed));
        input
    }
}

impl Buffers {
    /// The sum of each output, from its first byte to its last.
    fn sums(&self) -> String {
        let logs: Vec<u8> = self.logs.iter().flat_map(|log| log.to_le_bytes()).collect();
        let sum = |bytes: &[u8]| format!("{:016x}", xxh3_64(bytes));
        [sum(&self.partners), sum(&logs), sum(&self.marks)].join(" ")
    }
}

impl Call {
    /// Kind 2 or 3, the name, the form, the key, the rooms, and for kind 3 the
    /// record.
    pub fn input(&self) -> Vec<u8> {
        let kind = if self.record.is_some() { 3 } else { 2 };
        let mut input = vec![kind, self.name.len() as u8];
        input.extend(self.name.bytes());
        input.push(u8::from(self.full));
        input.extend(self.key);
        for room in [self.rooms.partners, self.rooms.logs, self.rooms.marks] {
            input.extend(room.to_le_bytes());
        }
        if let Some(record) = &self.record {
            input.extend(record.input());
        }
        input
    }

    pub fn outcome(&self, file: &[u8]) -> Outcome {
        let record = self.record.as_ref().map(LentRecord::opened);
        self.outcome_with(file, record.as_ref())
    }

    /// The outcome of this call if it were made with this record, or with none.
    pub fn outcome_with(&self, file: &[u8], record: Option<&OpenedRecord>) -> Outcome {
        let mut buffers = self.rooms.fresh();
        let outputs = Outputs {
            partners: &mut buffers.partners,
            logs: &mut buffers.logs,
            marks: &mut buffers.marks,
        };
        let key = &self.key;
        let answer = match (record, self.full) {
            (None, true) => lookup::lookup(file, key, outputs),
            (None, false) => lookup::partners(file, key, outputs.partners),
            (Some(record), true) => lookup::lookup_from_record(file, record, key, outputs),
            (Some(record), false) => {
                lookup::partners_from_record(file, record, key, outputs.partners)
            }
        };
        Outcome { answer, buffers }
    }

    /// A line for the answer, and one for each partner of a small group.
    pub fn lines(&self, file: &[u8]) -> String {
        let Outcome { answer, buffers } = self.outcome(file);
        let mut partners = 0;
        let text = match answer {
            Err(refusal) => refusal.to_string(),
            Ok(Answer::Absent { compared }) => format!("absent compared {compared}"),
            Ok(Answer::Found {
                degree,
                index,
                compared,
            }) => {
                if degree <= 3 {
                    partners = degree as usize;
                }
                format!("found {degree} at {index} compared {compared}")
            }
        };
        let mut lines = format!("{}: {text} sums {}\n", self.name, buffers.sums());
        for i in 0..partners {
            lines += &format!("  partner {}", hex(&buffers.partners[16 * i..][..16]));
            if self.full {
                lines += &format!(" log {} mark {}", buffers.logs[i], buffers.marks[i]);
            }
            lines += "\n";
        }
        lines
    }
}

impl Outcome {
    /// The answer as an author would state it.
    pub fn told(&self) -> Intended {
        match self.answer {
            Err(refusal) => Intended::Refused(refusal),
            Ok(Answer::Absent { .. }) => Intended::Absent,
            Ok(Answer::Found { degree, index, .. }) => Intended::Found { degree, index },
        }
    }
}
