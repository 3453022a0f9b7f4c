//! Checks of opening and of its corpus.

mod reserved;
mod starts;

use super::{check_framed, check_names, Named, Tally};
use crate::corpus::open_files::{self, OpenFile, Verdict};
use crate::format::{bound, kind, HEADER, MAGIC, TRAILER};
use crate::groups::{self, Edge, Form, Group};
use crate::header::{header, HeaderFields};
use crate::layout::{mend, Header, Layout, Section};
use crate::numbers::id_of;
use crate::open::{open, Opened};
use crate::refusal::Refusal;
use std::collections::{BTreeMap, BTreeSet};

/// The refusals of opening, in the order of its checks.
pub const NUMBERS: [u8; 17] = [1, 2, 3, 4, 5, 6, 7, 8, 9, 36, 10, 11, 12, 13, 14, 15, 37];

pub fn check(tally: &mut Tally) {
    let small = open_files::small();
    let large = open_files::large();
    check_marked_cases(tally, &small);
    check_headers(tally, &small);
    let named = |file: &OpenFile| (file.name.clone(), file.bytes.clone());
    let items: Vec<Named> = small.iter().chain(&large).map(named).collect();
    check_names(tally, &items);
    check_sizes(tally, &small, &large);
    check_framed(tally, &open_files::stdin(&small), &items[..small.len()]);
    for file in small.iter().chain(&large) {
        check_intended(tally, file);
        check_relaid(tally, file);
    }
    check_refusals(tally, &small);
    reserved::check(tally, &small);
    starts::check(tally, &small, &large);
    check_bounds(tally);
    check_any_bytes(tally, &small);
}

/// The marked cases of the format's rules that are about whole files or groups.
fn check_marked_cases(tally: &mut Tally, files: &[OpenFile]) {
    for (name, size) in [("heading-only", 218), ("one-edge", 256)] {
        let found = files.iter().find(|file| file.name == name);
        let found = found.map(|file| file.bytes.len());
        tally.same(&format!("size of {name}"), found, Some(size));
    }
    let edge = |lower| Edge {
        partner: id_of(5, lower),
        log: 0,
        dead: false,
    };
    let group = Group {
        key: id_of(0, 0),
        form: Form::Split,
        edges: vec![edge(1), edge(2)],
    };
    tally.same(
        "marked group of two partners",
        groups::partners(&[group]).bytes,
        vec![2, 1, 5, 1, 0, 0, 0, 0, 0, 0, 0, 0, 2, 0, 0, 0, 0, 0, 0, 0],
    );
}

/// The headers of some files, as their authors wrote them.
fn check_headers(tally: &mut Tally, files: &[OpenFile]) {
    let ids = [0x10, 0x20, 0x30].map(|first| std::array::from_fn(|i| first + i as u8));
    let ones = [[0xFF; 16]; 3];
    for (name, minor, inverse, flags, ids) in [
        ("one-edge", 0, false, 0, ids),
        ("minor-200", 200, false, 0, ids),
        ("inverse-one-edge", 0, true, 8, ids),
        ("flags-0111", 0, false, 7, ids),
        ("flags-1011", 0, true, 11, ids),
        ("ids-all-ones", 0, false, 0, ones),
    ] {
        let found = files.iter().find(|file| file.name == name);
        let fields = HeaderFields {
            minor,
            inverse,
            flags,
            ids,
        };
        let what = format!("header of {name}");
        tally.same(
            &what,
            found.map(|file| header(&file.bytes)),
            Some(Ok(fields)),
        );
    }
}

fn check_sizes(tally: &mut Tally, small: &[OpenFile], large: &[OpenFile]) {
    let size = open_files::stdin(small).len();
    tally.same("small corpus at most 1020000", size <= 1_020_000, true);
    tally.same("large files at most 12", large.len() <= 12, true);
    let longest = large.iter().map(|file| file.bytes.len()).max();
    let within = longest.is_some_and(|longest| longest <= 3_500_000);
    tally.same("large files at most 3500000", within, true);
    tally.notes.push(format!(
        "corpus of opening: {} files, {size} bytes; {} large files",
        small.len(),
        large.len()
    ));
}

fn check_intended(tally: &mut Tally, file: &OpenFile) {
    if let Some(intended) = file.intended {
        tally.same(&file.name, file.verdict(), intended);
    }
}

/// A file that opens comes out the same when it is laid out from what opening
/// found in it.
fn check_relaid(tally: &mut Tally, file: &OpenFile) {
    if let Ok(opened) = open(&file.bytes) {
        let relaid = found_layout(&file.bytes, &opened).bytes();
        let what = format!("{} laid out again", file.name);
        tally.same(&what, relaid == file.bytes, true);
    }
}

/// The description of an opened file, by its header, its rows and its record.
fn found_layout(file: &[u8], opened: &Opened) -> Layout {
    let part = |offset: u64, length: u64| &file[offset as usize..(offset + length) as usize];
    let mut end = HEADER as u64;
    let mut sections = Vec::new();
    for row in &opened.rows {
        let bytes = part(row.range.offset, row.range.length);
        let mut section = Section::new(row.kind, bytes)
            .codec(row.codec)
            .named(part(row.name_place, u64::from(row.name_length)))
            .gap(part(end, row.range.offset - end));
        section.stated.checksum = Some(row.checksum);
        sections.push(section);
        end = row.range.offset + row.range.length;
    }
    // Where the footer begins: the first name comes after the section count
    // and the first row.
    let footer_place = opened.rows[0].name_place - 30;
    let fields = header(file).expect("an opened file");
    let [edge_type, source, destination] = fields.ids;
    let header = Header {
        minor: fields.minor,
        edge_type,
        source,
        destination,
        ..Header::new(fields.flags)
    };
    let record = &opened.record;
    Layout {
        last_gap: part(end, footer_place - end).to_vec(),
        key_count: record.key_count,
        edge_count: record.edge_count,
        offset_bits: record.offset_bits,
        ..Layout::new(header, sections)
    }
}

/// Every refusal of opening comes up, and those with places at several.
fn check_refusals(tally: &mut Tally, files: &[OpenFile]) {
    let mut places: BTreeMap<u8, Vec<u64>> = BTreeMap::new();
    for file in files {
        if let Verdict::Refused(Refusal { number, place, .. }) = file.verdict() {
            places.entry(number).or_default().push(place);
        }
    }
    let refused: usize = places.values().map(Vec::len).sum();
    let opened = files.len() - refused;
    tally.notes.push(format!("opens: files {opened}"));
    for number in NUMBERS {
        let places = places.get(&number).map_or(&[][..], Vec::as_slice);
        let distinct: BTreeSet<&u64> = places.iter().collect();
        let what = format!("refusal {number}");
        let enough = match number {
            10 | 11 | 13 | 14 | 36 | 37 => distinct.len() >= 4,
            _ => distinct.len() == 1 && places[0] == 0,
        };
        tally.same(&format!("{what} at its places"), enough, true);
        tally.same(
            &format!("{what} in two files or more"),
            places.len() >= 2,
            true,
        );
        tally.notes.push(format!(
            "{what}: files {}, places {}",
            places.len(),
            distinct.len()
        ));
    }
}

/// The bounds of file, keys and edges, in files of zeros but for header and
/// footer. Hardly any of their bytes is ever touched.
fn check_bounds(tally: &mut Tally) {
    let refused = |number, place| Err(Refusal::at(number, place));
    let zeros = |size: u64| vec![0; size as usize];
    tally.same(
        "2^30 bytes",
        open(&zeros(bound::FILE)).map(drop),
        refused(2, 0),
    );
    tally.same(
        "2^30 + 1 bytes",
        open(&zeros(bound::FILE + 1)).map(drop),
        refused(1, 0),
    );
    for (keys, edges, verdict) in [
        (bound::KEYS, bound::KEYS, refused(13, 1)),
        (bound::KEYS + 1, bound::KEYS + 1, refused(12, 0)),
        (1, bound::EDGES, refused(14, 1)),
        (1, bound::EDGES + 1, refused(12, 0)),
    ] {
        let file = file_of_zeros(keys, edges);
        let what = format!("{keys} keys and {edges} edges");
        tally.same(&what, open(&file).map(drop), verdict);
    }
}

/// A file whose sections are zeros and have the lengths that the counts give.
fn file_of_zeros(keys: u64, edges: u64) -> Vec<u8> {
    let mut place = HEADER as u64;
    let sections = [
        (kind::KEYS, 16 * keys),
        (kind::OFFSETS, 3 * (keys + 1)),
        (kind::PARTNERS, 0),
        (kind::LOGS, 8 * edges),
        (kind::FENCES, 8),
    ]
    .map(|(kind, length)| {
        let mut section = Section::new(kind, []);
        section.stated.offset = Some(place);
        section.stated.length = Some(length);
        place += length;
        section
    });
    let without_sections = Layout {
        key_count: keys,
        edge_count: edges,
        ..Layout::new(Header::new(0), sections.into())
    }
    .bytes();
    let (header, footer) = without_sections.split_at(HEADER);
    let mut file = vec![0; place as usize + footer.len()];
    file[..HEADER].copy_from_slice(header);
    file[place as usize..].copy_from_slice(footer);
    file
}

/// Opening has an answer for any bytes, and one of the right form: each
/// beginning of some files, with a trailer put on, and each byte changed.
fn check_any_bytes(tally: &mut Tally, files: &[OpenFile]) {
    for name in ["heading-only", "one-edge", "full", "indexed"] {
        let found = files.iter().find(|file| file.name == name);
        let whole = &found.expect("a file of the corpus").bytes;
        for size in 0..whole.len() {
            let mut cut = whole[..size].to_vec();
            check_answer(tally, &cut);
            if size >= HEADER + TRAILER {
                cut[size - 8..].copy_from_slice(&MAGIC);
                for footer_length in [39, (size - HEADER) as u32] {
                    cut[size - 12..size - 8].copy_from_slice(&footer_length.to_le_bytes());
                    mend(&mut cut);
                    check_answer(tally, &cut);
                }
            }
            for change in [0x01, 0x80, 0xFF] {
                let mut changed = whole.clone();
                changed[size] ^= change;
                mend(&mut changed);
                check_answer(tally, &changed);
            }
        }
    }
}

fn check_answer(tally: &mut Tally, file: &[u8]) {
    let formed = match open(file) {
        Ok(opened) => (1..=64).contains(&opened.rows.len()),
        Err(Refusal {
            number,
            place,
            beside: 0,
        }) => match number {
            10 | 11 | 36 => place < 64,
            13 | 14 | 37 => place <= bound::KEYS,
            _ => NUMBERS.contains(&number) && place == 0,
        },
        Err(_) => false,
    };
    tally.same("an answer of the right form", formed, true);
}
