//! Opening: the checks 1 to 9, 36, 10 to 15 and 37, one after the other. The
//! first that fails gives the refusal; a file that passes all of them is open.

use crate::format::{
    bound, flag, kind, COUNTS, ENTRY, FENCE, FENCE_HEAD, HEADER, MAGIC, MAJOR, OFFSET_BITS, START,
    TRAILER,
};
use crate::numbers::{id_number, read_le, Id};
use crate::refusal::Refusal;
use crate::xxh3::xxh3_64;

#[derive(Clone, Copy, Debug, PartialEq, Eq)]
pub struct Range {
    pub offset: u64,
    pub length: u64,
}

/// A row of the section table.
#[derive(Clone, Debug, PartialEq, Eq)]
pub struct SectionRow {
    pub kind: u16,
    pub codec: u8,
    /// From the file's first byte. An empty name has the place at which it
    /// would begin.
    pub name_place: u64,
    pub name_length: u8,
    pub range: Range,
    pub checksum: u64,
}

/// What a lookup needs to know of a file.
#[derive(Clone, Debug, PartialEq, Eq)]
pub struct OpenedRecord {
    pub keys: Range,
    pub offsets: Range,
    pub partners: Range,
    pub logs: Range,
    pub tombstones: Option<Range>,
    pub key_count: u64,
    pub edge_count: u64,
    pub offset_bits: u8,
    /// The start index, where there is one.
    pub starts: Option<Range>,
}

#[derive(Clone, Debug, PartialEq, Eq)]
pub struct Opened {
    pub record: OpenedRecord,
    pub rows: Vec<SectionRow>,
}

pub fn open(file: &[u8]) -> Result<Opened, Refusal> {
    let size = file.len() as u64;
    refuse_if(1, !(84..=bound::FILE).contains(&size))?;

    refuse_if(2, file[..8] != MAGIC)?;
    refuse_if(3, file[8] != MAJOR)?;
    refuse_if(4, read_le(&file[10..12]) != HEADER as u64)?;
    let flags = read_le(&file[12..16]) as u32;
    refuse_if(5, flags >> 4 != 0)?;

    let trailer = &file[file.len() - TRAILER..];
    refuse_if(6, trailer[12..] != MAGIC)?;
    let footer_length = read_le(&trailer[8..12]);
    let longest = size - HEADER as u64;
    refuse_if(7, !(39..=longest).contains(&footer_length))?;
    let footer_place = size - footer_length;
    let body = &file[footer_place as usize..file.len() - TRAILER];
    refuse_if(8, xxh3_64(body) != read_le(&trailer[..8]))?;

    let footer = read_body(body, footer_place).filter(kinds_are_right);
    refuse_if(9, footer.is_none())?;
    let footer = footer.expect("refused otherwise");

    refuse_at(36, footer.rows.iter().position(is_reserved))?;
    refuse_at(10, footer.rows.iter().position(is_not_raw))?;
    refuse_at(11, first_bad_range(&footer.rows, footer_place))?;
    refuse_if(12, counts_are_wrong(&footer, flags))?;

    let record = record(&footer);
    check_sections(file, &record, footer.range(kind::FENCES))?;
    let rows = footer.rows;
    Ok(Opened { record, rows })
}

/// Checks 13 to 15 and 37: what stands in the sections that are opened.
fn check_sections(
    file: &[u8],
    record: &OpenedRecord,
    fences: Option<Range>,
) -> Result<(), Refusal> {
    let keys = bytes_of(file, record.keys);
    let offsets = bytes_of(file, record.offsets);
    refuse_at(13, first_key_not_above(keys))?;
    refuse_at(14, first_bad_offset(offsets, record))?;
    if let Some(fences) = fences {
        refuse_if(15, fences_are_wrong(bytes_of(file, fences), keys))?;
    }
    if let Some(starts) = record.starts {
        let starts = bytes_of(file, starts);
        refuse_at(37, first_bad_start(starts, record.edge_count))?;
    }
    Ok(())
}

pub fn refuse_if(number: u8, fault: bool) -> Result<(), Refusal> {
    refuse_at(number, fault.then_some(0))
}

/// Refuses if there is a faulty entry or index, and there.
pub fn refuse_at(number: u8, faulty: Option<usize>) -> Result<(), Refusal> {
    match faulty {
        None => Ok(()),
        Some(place) => Err(Refusal::at(number, place as u64)),
    }
}

/// The bytes of a range that lies in the file.
pub fn bytes_of(file: &[u8], range: Range) -> &[u8] {
    let begin = range.offset as usize;
    &file[begin..begin + range.length as usize]
}

impl Range {
    /// A sum that may pass 2^64.
    pub fn end(&self) -> u128 {
        u128::from(self.offset) + u128::from(self.length)
    }
}

/// What the footer body says.
struct Footer {
    rows: Vec<SectionRow>,
    key_count: u64,
    edge_count: u64,
    offset_bits: u8,
}

impl Footer {
    fn count(&self, kind: u16) -> usize {
        self.rows.iter().filter(|row| row.kind == kind).count()
    }

    fn range(&self, kind: u16) -> Option<Range> {
        let row = self.rows.iter().find(|row| row.kind == kind)?;
        Some(row.range)
    }

    /// The range of a kind of which check 9 has found exactly one.
    fn required(&self, kind: u16) -> Range {
        self.range(kind).expect("exactly one")
    }
}

/// Check 9, first part: the table and the counts fill the body exactly, there
/// are 1 to 64 sections, and each name keeps the rules for names. Nothing if
/// that is not so.
fn read_body(body: &[u8], body_place: u64) -> Option<Footer> {
    let section_count = read_le(body.get(..2)?);
    if !(1..=bound::SECTIONS).contains(&section_count) {
        return None;
    }
    let mut rows = Vec::new();
    let mut place = 2;
    for _ in 0..section_count {
        let entry = body.get(place..place + ENTRY)?;
        let name_place = place + ENTRY;
        let row = read_entry(entry, body_place + name_place as u64)?;
        place = name_place + usize::from(row.name_length);
        rows.push(row);
    }
    let counts = body.get(place..)?;
    if counts.len() != COUNTS {
        return None;
    }
    Some(Footer {
        rows,
        key_count: read_le(&counts[..8]),
        edge_count: read_le(&counts[8..16]),
        offset_bits: counts[16],
    })
}

/// The row whose name begins at this place of the file. Nothing if the name is
/// too long, or if the kind has none.
fn read_entry(entry: &[u8], name_place: u64) -> Option<SectionRow> {
    let kind = read_le(&entry[..2]) as u16;
    let name_length = entry[3];
    let named = name_length > 0;
    if name_length > bound::NAME || (named && kind::READ.contains(&kind)) {
        return None;
    }
    Some(SectionRow {
        kind,
        codec: entry[2],
        name_place,
        name_length,
        range: Range {
            offset: read_le(&entry[4..12]),
            length: read_le(&entry[12..20]),
        },
        checksum: read_le(&entry[20..28]),
    })
}

/// Check 9, second part: no kind is missing or doubled.
fn kinds_are_right(footer: &Footer) -> bool {
    let once = [kind::KEYS, kind::OFFSETS, kind::PARTNERS, kind::LOGS];
    let at_most_once = [kind::TOMBSTONES, kind::FENCES, kind::START_INDEX];
    once.iter().all(|&kind| footer.count(kind) == 1)
        && at_most_once.iter().all(|&kind| footer.count(kind) <= 1)
}

/// Check 36. Nothing but the kind matters, and each entry is asked.
fn is_reserved(row: &SectionRow) -> bool {
    kind::RESERVED.contains(&row.kind)
}

/// Check 10.
fn is_not_raw(row: &SectionRow) -> bool {
    kind::READ.contains(&row.kind) && row.codec != 0
}

/// Check 11: each section, of whatever kind, lies between header and footer
/// and begins no earlier than the one before it ends.
fn first_bad_range(rows: &[SectionRow], footer_place: u64) -> Option<usize> {
    let mut last_end = 0;
    rows.iter().position(|row| {
        let begin = u128::from(row.range.offset);
        let end = row.range.end();
        let bad = begin < HEADER as u128 || end > u128::from(footer_place) || begin < last_end;
        last_end = end;
        bad
    })
}

/// Check 12.
fn counts_are_wrong(footer: &Footer, flags: u32) -> bool {
    let keys = u128::from(footer.key_count);
    let edges = u128::from(footer.edge_count);
    let bits = u128::from(footer.offset_bits);
    let length = |kind| u128::from(footer.required(kind).length);
    let tombstones = footer.range(kind::TOMBSTONES);
    let starts = footer.range(kind::START_INDEX);
    let has_properties = footer.count(kind::PROPERTIES) > 0;

    keys > u128::from(bound::KEYS)
        || edges > u128::from(bound::EDGES)
        || !OFFSET_BITS.contains(&footer.offset_bits)
        || length(kind::KEYS) != 16 * keys
        || length(kind::OFFSETS) != (keys + 1) * bits / 8
        || length(kind::LOGS) != 8 * edges
        || tombstones.is_some_and(|range| u128::from(range.length) != edges.div_ceil(8))
        || starts.is_some_and(|range| u128::from(range.length) != START as u128 * (keys + 1))
        || edges < keys
        || (keys == 0 && edges > 0)
        || (keys > u128::from(bound::KEYS_WITHOUT_FENCES) && footer.count(kind::FENCES) == 0)
        || (flags & flag::PROPERTIES != 0) != has_properties
        || (flags & flag::TOMBSTONES != 0 && tombstones.is_none())
}

fn record(footer: &Footer) -> OpenedRecord {
    OpenedRecord {
        keys: footer.required(kind::KEYS),
        offsets: footer.required(kind::OFFSETS),
        partners: footer.required(kind::PARTNERS),
        logs: footer.required(kind::LOGS),
        tombstones: footer.range(kind::TOMBSTONES),
        key_count: footer.key_count,
        edge_count: footer.edge_count,
        offset_bits: footer.offset_bits,
        starts: footer.range(kind::START_INDEX),
    }
}

fn key(keys: &[u8], index: usize) -> u128 {
    let id: &Id = keys[16 * index..][..16].try_into().expect("16 bytes");
    id_number(id)
}

/// Check 13: each key is above the one before it.
fn first_key_not_above(keys: &[u8]) -> Option<usize> {
    (1..keys.len() / 16).find(|&i| key(keys, i) <= key(keys, i - 1))
}

/// Check 14: the first offset is 0, each is above the one before it, the last
/// is the length of the partner section. With no keys the only offset is both
/// the first and the last.
fn first_bad_offset(offsets: &[u8], record: &OpenedRecord) -> Option<usize> {
    let width = usize::from(record.offset_bits / 8);
    let last = record.key_count as usize;
    let offset = |i: usize| read_le(&offsets[width * i..][..width]);
    (0..=last).find(|&i| {
        (i == 0 && offset(i) != 0)
            || (i > 0 && offset(i) <= offset(i - 1))
            || (i == last && offset(i) != record.partners.length)
    })
}

/// Check 15: stride and entry count, then for each entry i the key i·stride
/// and the place 16·i·stride, and nothing more.
fn fences_are_wrong(fences: &[u8], keys: &[u8]) -> bool {
    if fences.len() < FENCE_HEAD {
        return true;
    }
    let key_count = keys.len() as u64 / 16;
    let stride = read_le(&fences[..4]);
    let entry_count = read_le(&fences[4..8]);
    let entries = &fences[FENCE_HEAD..];
    if stride == 0
        || entry_count != key_count.div_ceil(stride)
        || entries.len() as u64 != FENCE as u64 * entry_count
    {
        return true;
    }
    entries.chunks_exact(FENCE).enumerate().any(|(i, entry)| {
        // Below the key count, as the entry count is right.
        let index = i * stride as usize;
        let place = 16 * index;
        entry[..16] != keys[place..][..16] || read_le(&entry[16..]) != place as u64
    })
}

/// Check 37: the first start is 0, each is above the one before it, the last is
/// the edge count. With no keys the only start is both the first and the last.
fn first_bad_start(starts: &[u8], edge_count: u64) -> Option<usize> {
    let starts: Vec<u64> = starts.chunks_exact(START).map(read_le).collect();
    let last = starts.len() - 1;
    (0..=last).find(|&i| {
        let falls = match i {
            0 => starts[0] != 0,
            _ => starts[i] <= starts[i - 1],
        };
        falls || (i == last && starts[i] != edge_count)
    })
}
