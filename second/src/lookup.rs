//! Looking up a key. A lookup opens the file or takes a record from earlier;
//! then come the search, the key's group, the number of the group's first
//! edge, and the room in the outputs. The first of these that fails gives the
//! refusal, and nothing is written before all have passed.

pub mod group;
mod record;
mod search;

use crate::format::START;
use crate::numbers::{id_number, read_le, Id};
use crate::open::{bytes_of, open, OpenedRecord};
use crate::refusal::Refusal;

/// What a lookup says that is not refused. It carries the count of keys that
/// the search compared.
#[derive(Clone, Copy, Debug, PartialEq, Eq)]
pub enum Answer {
    Absent {
        compared: u32,
    },
    Found {
        degree: u64,
        index: u64,
        compared: u32,
    },
}

/// The memory that the caller of a full lookup lends. Each part has a length
/// of its own, and what lies past the answer stays as it is.
pub struct Outputs<'a> {
    /// 16 bytes for each partner.
    pub partners: &'a mut [u8],
    pub logs: &'a mut [u64],
    /// 1 for a dead edge, 0 for a live one.
    pub marks: &'a mut [u8],
}

/// The partners of a key with their log numbers and dead marks.
pub fn lookup(file: &[u8], key: &Id, outputs: Outputs) -> Result<Answer, Refusal> {
    let record = open(file)?.record;
    Sections::new(file, &record).lookup(key, outputs)
}

/// The partners of a key alone.
pub fn partners(file: &[u8], key: &Id, output: &mut [u8]) -> Result<Answer, Refusal> {
    let record = open(file)?.record;
    Sections::new(file, &record).partners(key, output)
}

/// As `lookup`, by what the record says, whoever filled it.
pub fn lookup_from_record(
    file: &[u8],
    record: &OpenedRecord,
    key: &Id,
    outputs: Outputs,
) -> Result<Answer, Refusal> {
    record::check(file, record)?;
    Sections::new(file, record).lookup(key, outputs)
}

/// As `partners`, by what the record says, whoever filled it.
pub fn partners_from_record(
    file: &[u8],
    record: &OpenedRecord,
    key: &Id,
    output: &mut [u8],
) -> Result<Answer, Refusal> {
    record::check(file, record)?;
    Sections::new(file, record).partners(key, output)
}

fn refuse<T>(number: u8, place: u64) -> Result<T, Refusal> {
    Err(Refusal::at(number, place))
}

/// The bytes of a file that a record says are to be read for its edges.
pub struct Sections<'a> {
    keys: &'a [u8],
    offsets: &'a [u8],
    offset_width: usize,
    partners: &'a [u8],
    logs: &'a [u8],
    tombstones: Option<&'a [u8]>,
    starts: Option<&'a [u8]>,
    edge_count: u64,
}

impl<'a> Sections<'a> {
    /// The record is that of opening or has passed the check of records.
    pub fn new(file: &'a [u8], record: &OpenedRecord) -> Self {
        Sections {
            keys: bytes_of(file, record.keys),
            offsets: bytes_of(file, record.offsets),
            offset_width: usize::from(record.offset_bits / 8),
            partners: bytes_of(file, record.partners),
            logs: bytes_of(file, record.logs),
            tombstones: record.tombstones.map(|range| bytes_of(file, range)),
            starts: record.starts.map(|range| bytes_of(file, range)),
            edge_count: record.edge_count,
        }
    }

    fn lookup(&self, key: &Id, outputs: Outputs) -> Result<Answer, Refusal> {
        self.answer(key, |index, partners| {
            let degree = partners.len();
            let Some(first_edge) = self.first_edge(index, degree) else {
                return refuse(19, index as u64);
            };
            if outputs.logs.len().min(outputs.marks.len()) < degree {
                return refuse(20, degree as u64);
            }
            write_partners(partners, outputs.partners)?;
            for (i, edge) in (first_edge..first_edge + degree).enumerate() {
                outputs.logs[i] = self.log(edge);
                outputs.marks[i] = self.mark(edge);
            }
            Ok(())
        })
    }

    fn partners(&self, key: &Id, output: &mut [u8]) -> Result<Answer, Refusal> {
        self.answer(key, |_, partners| write_partners(partners, output))
    }

    /// The search, the group that it leads to, and then `write` with the
    /// group's index and partners, which may still refuse.
    fn answer(
        &self,
        key: &Id,
        write: impl FnOnce(usize, &[u128]) -> Result<(), Refusal>,
    ) -> Result<Answer, Refusal> {
        let (index, compared) = search::halving(self.keys, key);
        let Some(index) = index else {
            return Ok(Answer::Absent { compared });
        };
        let Some(group) = self.group(index) else {
            return refuse(14, index as u64);
        };
        let partners = match group::partners(group) {
            Ok(partners) => partners,
            Err(fault) => return Err(fault.refusal(index as u64)),
        };
        write(index, &partners)?;
        Ok(Answer::Found {
            degree: partners.len() as u64,
            index: index as u64,
            compared,
        })
    }

    fn offset(&self, index: usize) -> usize {
        let width = self.offset_width;
        read_le(&self.offsets[width * index..][..width]) as usize
    }

    /// The bytes of a group. Nothing if its two offsets fall or pass the
    /// partner range; equal ones below that make an empty group.
    pub fn group(&self, index: usize) -> Option<&'a [u8]> {
        self.partners
            .get(self.offset(index)..self.offset(index + 1))
    }

    /// The number of the group's first edge, by the start index where there is
    /// one. Nothing if it cannot be told.
    fn first_edge(&self, index: usize, degree: usize) -> Option<usize> {
        match self.starts {
            None => self.summed_edge(index, degree),
            Some(starts) => self.indexed_edge(starts, index, degree),
        }
    }

    /// The start that the index says. Nothing if the next one does not follow
    /// after as many edges as the group has, or passes the edge count. No other
    /// group is looked at.
    fn indexed_edge(&self, starts: &[u8], index: usize, degree: usize) -> Option<usize> {
        let start = |i: usize| u128::from(read_le(&starts[START * i..][..START]));
        let (begin, end) = (start(index), start(index + 1));
        let agrees = begin + degree as u128 == end && end <= u128::from(self.edge_count);
        agrees.then_some(begin as usize)
    }

    /// The sum of the earlier degrees, for which nothing but the first varint of
    /// each earlier group is read. Nothing if one of them cannot be read or is
    /// 0, or if the group's own edges pass the edge count.
    fn summed_edge(&self, index: usize, degree: usize) -> Option<usize> {
        let mut sum: u128 = 0;
        for earlier in 0..index {
            let degree = group::degree(self.group(earlier)?).ok()?;
            sum += u128::from(degree);
        }
        let end = sum + degree as u128;
        (end <= u128::from(self.edge_count)).then_some(sum as usize)
    }

    pub fn key(&self, index: usize) -> Id {
        id_at(self.keys, index).to_be_bytes()
    }

    /// All entries of the start index, if there is one.
    pub fn starts(&self) -> Option<Vec<u64>> {
        let entries = self.starts?.chunks_exact(START);
        Some(entries.map(read_le).collect())
    }

    pub fn log(&self, edge: usize) -> u64 {
        read_le(&self.logs[8 * edge..][..8])
    }

    /// Edge e is bit e mod 8 of byte e/8; without tombstones all are live.
    pub fn mark(&self, edge: usize) -> u8 {
        match self.tombstones {
            None => 0,
            Some(bytes) => bytes[edge / 8] >> (edge % 8) & 1,
        }
    }
}

/// Refuses an output without room for all partners.
fn write_partners(partners: &[u128], output: &mut [u8]) -> Result<(), Refusal> {
    let degree = partners.len();
    let Some(room) = output.get_mut(..16 * degree) else {
        return refuse(20, degree as u64);
    };
    for (id, partner) in room.chunks_exact_mut(16).zip(partners) {
        id.copy_from_slice(&partner.to_be_bytes());
    }
    Ok(())
}

/// The id at this index of a run of ids.
fn id_at(ids: &[u8], index: usize) -> u128 {
    let id: &Id = ids[16 * index..][..16].try_into().expect("16 bytes");
    id_number(id)
}
