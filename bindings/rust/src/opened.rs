//! An opened file and its lookups: the workbench's calls.

use crate::ffi;
use crate::refusal::{refuse_if, Refusal};
use std::ops::Range;

#[cfg(test)]
mod tests;

/// A key or a partner: it compares as 16 bytes from the first.
pub type Id = [u8; 16];

/// Where edge files are opened.
pub struct EdgeSst;

/// A file whose frame, keys, offsets, fences and order of the start index are good. It
/// borrows the bytes, so that they stay as they were when they were opened.
#[derive(Clone, Copy, Debug)]
pub struct Opened<'a> {
    file: &'a [u8],
    record: ffi::Opened,
}

/// What the header of a file says. No checksum covers it.
#[derive(Clone, Copy, Debug, PartialEq, Eq)]
pub struct Header {
    /// The writer's minor version: any.
    pub minor: u8,
    /// An inverse file or a forward one; bit 3 of the flags.
    pub inverse: bool,
    /// Bit 0 properties, 1 tombstones, 2 a dense group, 3 an inverse file; no other.
    pub flags: u32,
    pub edge_type: Id,
    pub source: Id,
    pub destination: Id,
}

/// The partners of a key, in rising order, the key's index among the keys, and how
/// many keys were compared.
#[derive(Clone, Debug, PartialEq, Eq)]
pub struct Partners {
    pub ids: Vec<Id>,
    pub index: u64,
    pub compared: u64,
}

/// An edge of the key that was asked for.
#[derive(Clone, Copy, Debug, PartialEq, Eq)]
pub struct Edge {
    pub partner: Id,
    pub log: u64,
    pub dead: bool,
}

/// As [`Partners`], with log numbers and dead marks.
#[derive(Clone, Debug, PartialEq, Eq)]
pub struct Edges {
    pub edges: Vec<Edge>,
    pub index: u64,
    pub compared: u64,
}

/// Room for so many partners is tried first.
const GUESS: usize = 16;

impl EdgeSst {
    /// Opens the bytes of a file: refusals 1 to 15, 36 and 37. Takes time linear in the
    /// keys.
    pub fn open(file: &[u8]) -> Result<Opened<'_>, Refusal> {
        // SAFETY: the pointer and length are of one slice, and not null.
        let record = unsafe { ffi::edge_sst_open(file.as_ptr(), file.len()) };
        refuse_if(record.number, record.place, record.beside)?;
        Ok(Opened { file, record })
    }
}

impl<'a> Opened<'a> {
    pub fn file(&self) -> &'a [u8] {
        self.file
    }

    /// The header: minor version, direction, flags and the three ids. It opens the file
    /// again, so that it takes time linear in the keys.
    pub fn header(&self) -> Result<Header, Refusal> {
        // SAFETY: the pointer and length are of one slice, and not null.
        let told = unsafe { ffi::edge_sst_header(self.file.as_ptr(), self.file.len()) };
        refuse_if(told.number, told.place, told.beside)?;
        Ok(Header {
            minor: told.minor as u8,
            inverse: told.direction != 0,
            flags: told.flags as u32,
            edge_type: told.edgetype,
            source: told.source,
            destination: told.destination,
        })
    }

    pub fn key_count(&self) -> u64 {
        self.record.keycount
    }

    pub fn edge_count(&self) -> u64 {
        self.record.edgecount
    }

    /// The keys, in rising order.
    pub fn keys(&self) -> impl Iterator<Item = &'a Id> {
        let start = self.record.keystart as usize;
        let keys = &self.file[start..start + self.record.keylen as usize];
        keys.chunks_exact(16)
            .map(|key| key.try_into().expect("16 bytes"))
    }

    /// Where the start index lies in the file, `None` where it has none: a u64 for each
    /// key and one more, the number of edges before it.
    pub fn start_index(&self) -> Option<Range<usize>> {
        let start = self.record.indexstart as usize;
        let range = || start..start + self.record.indexlen as usize;
        (self.record.indexed != 0).then(range)
    }

    /// The partners of a key, `None` where it is absent: refusals 16 and 28 to 35.
    pub fn partners(&self, key: &Id) -> Result<Option<Partners>, Refusal> {
        with_room(|room| self.partners_in(key, room))
    }

    /// The edges of a key with log numbers and dead marks, `None` where it is
    /// absent: refusals 16, 19 and 28 to 35. Without a start index it takes the longer
    /// the later the key.
    pub fn lookup(&self, key: &Id) -> Result<Option<Edges>, Refusal> {
        with_room(|room| self.lookup_in(key, room))
    }

    fn partners_in(&self, key: &Id, room: usize) -> Result<Option<Partners>, Refusal> {
        let mut ids: Vec<Id> = vec![[0; 16]; room];
        // SAFETY: the pointers and lengths are of slices, and none is null; the
        // output is 16 bytes for each id, and nothing else points to it.
        let looked = unsafe {
            ffi::edge_sst_partners_with(
                self.file.as_ptr(),
                self.file.len(),
                &self.record,
                key.as_ptr(),
                ids.as_mut_ptr().cast(),
                16 * room,
            )
        };
        let degree = degree_of(&looked)?;
        Ok(degree.map(|degree| {
            ids.truncate(degree);
            Partners {
                ids,
                index: looked.index,
                compared: looked.compared,
            }
        }))
    }

    fn lookup_in(&self, key: &Id, room: usize) -> Result<Option<Edges>, Refusal> {
        let mut ids: Vec<Id> = vec![[0; 16]; room];
        let mut logs = vec![0_u64; room];
        let mut marks = vec![0_u8; room];
        // SAFETY: as above, of three outputs.
        let looked = unsafe {
            ffi::edge_sst_lookup_with(
                self.file.as_ptr(),
                self.file.len(),
                &self.record,
                key.as_ptr(),
                ids.as_mut_ptr().cast(),
                16 * room,
                logs.as_mut_ptr(),
                room,
                marks.as_mut_ptr(),
                room,
            )
        };
        let degree = degree_of(&looked)?;
        let edge = |i: usize| Edge {
            partner: ids[i],
            log: logs[i],
            dead: marks[i] != 0,
        };
        Ok(degree.map(|degree| Edges {
            edges: (0..degree).map(edge).collect(),
            index: looked.index,
            compared: looked.compared,
        }))
    }
}

/// How many partners were found, `None` where the key is absent.
fn degree_of(looked: &ffi::Looked) -> Result<Option<usize>, Refusal> {
    refuse_if(looked.number, looked.place, looked.beside)?;
    Ok((looked.found != 0).then_some(looked.degree as usize))
}

/// Asks with a guess, and once more with what refusal 20 says is needed.
fn with_room<T>(ask: impl Fn(usize) -> Result<T, Refusal>) -> Result<T, Refusal> {
    match ask(GUESS) {
        Err(Refusal {
            number: Refusal::ROOM,
            place,
            ..
        }) => ask(place as usize),
        answer => answer,
    }
}

pub use sections::Section;

mod sections {
    use super::{ffi, refuse_if, Opened, Refusal};

    /// An entry of the section table.
    #[derive(Clone, Copy, Debug, PartialEq, Eq)]
    pub struct Section<'a> {
        pub kind: u64,
        pub codec: u64,
        pub name: &'a [u8],
        pub start: u64,
        pub len: u64,
        pub sum: u64,
    }

    /// Numbers of a row, and the most rows that a file can have.
    const ROW: usize = 7;
    const MOST: usize = 64;

    impl<'a> Opened<'a> {
        /// The sections, in table order.
        pub fn sections(&self) -> Result<Vec<Section<'a>>, Refusal> {
            let mut numbers = [0_u64; ROW * MOST];
            // SAFETY: the pointers and lengths are of slices, and none is null.
            let listed = unsafe {
                ffi::edge_sst_sections(
                    self.file.as_ptr(),
                    self.file.len(),
                    numbers.as_mut_ptr(),
                    numbers.len(),
                )
            };
            refuse_if(listed.number, listed.place, listed.beside)?;
            let rows = numbers.chunks_exact(ROW).take(listed.rows as usize);
            Ok(rows.map(|row| self.section(row)).collect())
        }

        fn section(&self, row: &[u64]) -> Section<'a> {
            let name = row[2] as usize..(row[2] + row[3]) as usize;
            Section {
                kind: row[0],
                codec: row[1],
                name: &self.file[name],
                start: row[4],
                len: row[5],
                sum: row[6],
            }
        }
    }
}
