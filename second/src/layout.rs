//! Making files. A description says what the file holds and, where the file is
//! to be damaged, what its fields say instead of the truth. All that the
//! description leaves unsaid comes out right around the damage.

use crate::format::{HEADER, MAGIC, MAJOR, TRAILER};
use crate::numbers::{read_le, write_le, Id};
use crate::xxh3::xxh3_64;

#[derive(Clone)]
pub struct Header {
    pub magic: [u8; 8],
    pub major: u8,
    pub minor: u8,
    pub size: u16,
    pub flags: u32,
    pub edge_type: Id,
    pub source: Id,
    pub destination: Id,
}

#[derive(Clone)]
pub struct Section {
    pub kind: u16,
    pub codec: u8,
    pub name: Vec<u8>,
    pub bytes: Vec<u8>,
    /// Bytes that lie before this section and belong to none.
    pub gap: Vec<u8>,
    pub stated: Stated,
}

/// What a table row says in place of the truth.
#[derive(Clone, Default)]
pub struct Stated {
    pub name_length: Option<u8>,
    pub offset: Option<u64>,
    pub length: Option<u64>,
    pub checksum: Option<u64>,
}

#[derive(Clone)]
pub struct Layout {
    pub header: Header,
    /// In table order, which is also the order of their bytes in the file.
    pub sections: Vec<Section>,
    /// Bytes between the last section and the footer.
    pub last_gap: Vec<u8>,
    /// In place of the number of sections.
    pub section_count: Option<u16>,
    pub key_count: u64,
    pub edge_count: u64,
    pub offset_bits: u8,
    /// Bytes taken away from the end of the footer body.
    pub body_cut: usize,
    /// Bytes put at the end of the footer body, after the cut.
    pub body_rest: Vec<u8>,
    /// In place of the checksum of the body that the footer length gives.
    pub footer_checksum: Option<u64>,
    /// In place of the footer's length.
    pub footer_length: Option<u32>,
    pub tail_magic: [u8; 8],
}

impl Header {
    /// The ids show at a glance which is which and whether a byte is missing.
    pub fn new(flags: u32) -> Self {
        Header {
            magic: MAGIC,
            major: MAJOR,
            minor: 0,
            size: HEADER as u16,
            flags,
            edge_type: std::array::from_fn(|i| 0x10 + i as u8),
            source: std::array::from_fn(|i| 0x20 + i as u8),
            destination: std::array::from_fn(|i| 0x30 + i as u8),
        }
    }

    fn bytes(&self) -> Vec<u8> {
        let mut bytes = self.magic.to_vec();
        bytes.extend([self.major, self.minor]);
        bytes.extend(self.size.to_le_bytes());
        bytes.extend(self.flags.to_le_bytes());
        for id in [self.edge_type, self.source, self.destination] {
            bytes.extend(id);
        }
        bytes
    }
}

impl Section {
    pub fn new(kind: u16, bytes: impl Into<Vec<u8>>) -> Self {
        Section {
            kind,
            codec: 0,
            name: Vec::new(),
            bytes: bytes.into(),
            gap: Vec::new(),
            stated: Stated::default(),
        }
    }

    pub fn named(self, name: impl Into<Vec<u8>>) -> Self {
        Section {
            name: name.into(),
            ..self
        }
    }

    pub fn codec(self, codec: u8) -> Self {
        Section { codec, ..self }
    }

    pub fn gap(self, gap: impl Into<Vec<u8>>) -> Self {
        Section {
            gap: gap.into(),
            ..self
        }
    }

    /// The table row of this section if its bytes begin at `offset`.
    fn row(&self, offset: usize) -> Vec<u8> {
        let name_length = self.name.len() as u8;
        let stated = &self.stated;
        let mut row = self.kind.to_le_bytes().to_vec();
        row.extend([self.codec, stated.name_length.unwrap_or(name_length)]);
        for field in [
            stated.offset.unwrap_or(offset as u64),
            stated.length.unwrap_or(self.bytes.len() as u64),
            stated.checksum.unwrap_or_else(|| xxh3_64(&self.bytes)),
        ] {
            row.extend(field.to_le_bytes());
        }
        row.extend(&self.name);
        row
    }
}

impl Layout {
    pub fn new(header: Header, sections: Vec<Section>) -> Self {
        Layout {
            header,
            sections,
            last_gap: Vec::new(),
            section_count: None,
            key_count: 0,
            edge_count: 0,
            offset_bits: 24,
            body_cut: 0,
            body_rest: Vec::new(),
            footer_checksum: None,
            footer_length: None,
            tail_magic: MAGIC,
        }
    }

    /// This description with a change.
    pub fn with(mut self, change: impl FnOnce(&mut Layout)) -> Self {
        change(&mut self);
        self
    }

    /// The first section of the kind, which must be there.
    pub fn section(&mut self, kind: u16) -> &mut Section {
        self.sections
            .iter_mut()
            .find(|section| section.kind == kind)
            .expect("a section of the kind")
    }

    /// Where the bytes of each section truly begin.
    pub fn offsets(&self) -> Vec<u64> {
        let mut place = HEADER;
        let mut offsets = Vec::new();
        for section in &self.sections {
            place += section.gap.len();
            offsets.push(place as u64);
            place += section.bytes.len();
        }
        offsets
    }

    /// Where the footer truly begins.
    pub fn footer_place(&self) -> u64 {
        let sections: usize = self
            .sections
            .iter()
            .map(|section| section.gap.len() + section.bytes.len())
            .sum();
        (HEADER + sections + self.last_gap.len()) as u64
    }

    pub fn size(&self) -> u64 {
        self.footer_place() + (self.body().len() + TRAILER) as u64
    }

    /// The same file, described so that rows can move and its bytes stay: each
    /// row states its range and checksum, and the bytes are all one gap.
    pub fn with_bytes_fixed(mut self) -> Self {
        let offsets = self.offsets();
        let mut bytes = Vec::new();
        for (section, offset) in self.sections.iter_mut().zip(offsets) {
            bytes.append(&mut section.gap);
            section.stated.offset.get_or_insert(offset);
            let length = section.bytes.len() as u64;
            section.stated.length.get_or_insert(length);
            let checksum = xxh3_64(&section.bytes);
            section.stated.checksum.get_or_insert(checksum);
            bytes.append(&mut section.bytes);
        }
        bytes.append(&mut self.last_gap);
        self.last_gap = bytes;
        self
    }

    fn body(&self) -> Vec<u8> {
        let count = self.section_count.unwrap_or(self.sections.len() as u16);
        let mut body = count.to_le_bytes().to_vec();
        for (section, offset) in self.sections.iter().zip(self.offsets()) {
            body.extend(section.row(offset as usize));
        }
        body.extend(self.key_count.to_le_bytes());
        body.extend(self.edge_count.to_le_bytes());
        body.push(self.offset_bits);
        body.truncate(body.len() - self.body_cut);
        body.extend(&self.body_rest);
        body
    }

    pub fn bytes(&self) -> Vec<u8> {
        let mut file = self.header.bytes();
        for section in &self.sections {
            file.extend(&section.gap);
            file.extend(&section.bytes);
        }
        file.extend(&self.last_gap);
        let body = self.body();
        let footer_length = (body.len() + TRAILER) as u32;
        file.extend(&body);
        file.extend(self.footer_checksum.unwrap_or(0).to_le_bytes());
        file.extend(self.footer_length.unwrap_or(footer_length).to_le_bytes());
        file.extend(self.tail_magic);
        if self.footer_checksum.is_none() {
            mend(&mut file);
        }
        file
    }
}

/// Sets the checksum of the footer body right, for the body that the file's
/// own footer length gives. If that length leaves the file, there is no such
/// body, and nothing is set.
pub fn mend(file: &mut [u8]) {
    let Some(end) = file.len().checked_sub(TRAILER) else {
        return;
    };
    let footer_length = read_le(&file[end + 8..end + 12]) as usize;
    let body = file
        .len()
        .checked_sub(footer_length)
        .and_then(|begin| file.get(begin..end));
    if let Some(body) = body {
        let sum = xxh3_64(body);
        file[end..end + 8].copy_from_slice(&write_le(sum, 8));
    }
}
