//! Checks of the full check, of read-out and of their corpus; those of the
//! summary stand beside.

mod starts;

use super::groups::{check_fault, group_bytes, Spots, FAULTS};
use super::{check_framed, check_names, opening, summaries, Named, Tally};
use crate::batch;
use crate::corpus::check_files::{self, CheckFile, ROOM};
use crate::corpus::fresh_output;
use crate::full_check::{full_check, Contents};
use crate::groups::Edge;
use crate::lookup::{lookup_from_record, partners_from_record, Answer, Outputs};
use crate::numbers::Id;
use crate::open::{bytes_of, open, OpenedRecord};
use crate::print::LONGEST;
use crate::refusal::Refusal;
use std::collections::{BTreeMap, BTreeSet};

/// The refusals of the full check after those of opening, but for the faults of
/// groups.
const LATER: [u8; 2] = [22, 23];

pub fn check(tally: &mut Tally) {
    let files = check_files::files();
    let items: Vec<Named> = files
        .iter()
        .map(|file| (file.name.clone(), file.bytes.clone()))
        .collect();
    check_names(tally, &items);
    check_framed(tally, &check_files::stdin(&files), &items);
    check_sizes(tally, &files);
    for file in &files {
        if let Some(intended) = file.intended {
            tally.same(&file.name, file.verdict(), intended);
        }
        check_opening(tally, file);
        check_read_out(tally, file);
    }
    check_refusals(tally, &files);
    check_spots(tally, &files);
    check_changed_bytes(tally, &files);
    starts::check(tally, &files);
    summaries::check(tally, &files);
}

fn check_sizes(tally: &mut Tally, files: &[CheckFile]) {
    let input = check_files::stdin(files).len();
    let output = check_files::stdout(files).len();
    tally.same("check input at most 2900000", input <= 2_900_000, true);
    for file in files {
        let within = file.bytes.len() <= LONGEST;
        tally.same(&format!("size of {}", file.name), within, true);
    }
    let intended = files.iter().filter(|file| file.intended.is_some()).count();
    tally.notes.push(format!(
        "corpus of the full check: {} files, {intended} with an intended verdict, \
         {input} bytes in, {output} bytes out",
        files.len()
    ));
}

/// What opening refuses, the full check refuses alike. Of any other file the
/// lookups by its record have to agree with the check.
fn check_opening(tally: &mut Tally, file: &CheckFile) {
    let name = &file.name;
    match (open(&file.bytes), full_check(&file.bytes)) {
        (Err(refusal), checked) => tally.same(name, checked.map(drop), Err(refusal)),
        (Ok(opened), Ok(contents)) => check_contents(tally, file, &opened.record, &contents),
        (Ok(opened), Err(refusal)) => {
            if FAULTS.contains(&refusal.number) {
                check_group(tally, file, &opened.record, refusal);
            } else {
                tally.same(name, LATER.contains(&refusal.number), true);
                tally.same(name, refusal.beside, 0);
            }
        }
    }
}

fn keys(file: &CheckFile, record: &OpenedRecord) -> Vec<Id> {
    bytes_of(&file.bytes, record.keys)
        .chunks_exact(16)
        .map(|id| id.try_into().expect("16 bytes"))
        .collect()
}

/// The edges of a key, by a lookup with room for so many.
fn looked_up(file: &CheckFile, record: &OpenedRecord, key: &Id, room: usize) -> Option<Vec<Edge>> {
    let (mut partners, mut logs, mut marks) = (vec![0; 16 * room], vec![0; room], vec![0; room]);
    let outputs = Outputs {
        partners: &mut partners,
        logs: &mut logs,
        marks: &mut marks,
    };
    let answer = lookup_from_record(&file.bytes, record, key, outputs);
    let Ok(Answer::Found { degree, .. }) = answer else {
        return None;
    };
    let edge = |i: usize| Edge {
        partner: partners[16 * i..][..16].try_into().expect("16 bytes"),
        log: logs[i],
        dead: marks[i] == 1,
    };
    Some((0..degree as usize).map(edge).collect())
}

/// The lookup of each key finds what the full check has read, and if there is a
/// start index, the lookup without it finds the same.
fn check_contents(tally: &mut Tally, file: &CheckFile, record: &OpenedRecord, contents: &Contents) {
    let keys = keys(file, record);
    tally.same(&file.name, contents.groups.len(), keys.len());
    let without_starts = record.starts.map(|_| OpenedRecord {
        starts: None,
        ..record.clone()
    });
    for (key, group) in keys.iter().zip(&contents.groups) {
        tally.same(&file.name, group.key, *key);
        for record in [Some(record), without_starts.as_ref()]
            .into_iter()
            .flatten()
        {
            let found = looked_up(file, record, key, group.edges.len());
            tally.same(&file.name, found.as_ref(), Some(&group.edges));
        }
    }
}

/// The lookup of the faulty group refuses alike, and no lookup before it; and
/// the fault is in the group's bytes.
fn check_group(tally: &mut Tally, file: &CheckFile, record: &OpenedRecord, refusal: Refusal) {
    let mut output = vec![0; 16 * file.bytes.len()];
    let mut ask = |key: &Id| partners_from_record(&file.bytes, record, key, &mut output);
    let keys = keys(file, record);
    let index = refusal.beside as usize;
    tally.same(&file.name, ask(&keys[index]), Err(refusal));
    for key in &keys[..index] {
        tally.same(&file.name, ask(key).is_ok(), true);
    }
    let group = group_bytes(&file.bytes, record, index);
    check_fault(tally, &file.name, group, refusal);
}

/// The batch of a file that passes holds its edges, and nothing is written
/// past it; nothing at all if the read-out is refused.
fn check_read_out(tally: &mut Tally, file: &CheckFile) {
    let name = &file.name;
    let (told, output) = file.read_out(ROOM);
    let checked = full_check(&file.bytes);
    let size = told.unwrap_or(0) as usize;
    let untouched = output[size..] == fresh_output(ROOM)[size..];
    tally.same(&format!("{name} leaves the rest"), untouched, true);
    let Ok(contents) = checked else {
        tally.same(name, told.map(drop), checked.map(drop));
        return;
    };
    let batch = batch::parse(&output[..size]).expect("a batch");
    tally.same(name, size, batch::HEADING + batch::EDGE * batch.edges.len());
    let groups = contents.groups.iter();
    let edges = groups.flat_map(|group| group.edges.iter().map(|edge| (group.key, *edge)));
    let read = batch.edges.iter().map(|keyed| (keyed.key, keyed.edge));
    tally.same(name, read.eq(edges), true);
    tally.same(name, &output[2..50], &file.bytes[16..64]);
    tally.same(name, batch.inverse, file.bytes[12] & 8 != 0);

    for room in [0, size - 1] {
        let (told, output) = file.read_out(room);
        let place = size as u64;
        tally.same(name, told, Err(Refusal::at(20, place)));
        tally.same(name, output == fresh_output(room), true);
    }
}

/// Every refusal of the full check comes up, and those with places at several.
fn check_refusals(tally: &mut Tally, files: &[CheckFile]) {
    let mut told: BTreeMap<u8, Vec<Refusal>> = BTreeMap::new();
    for file in files {
        if let Err(refusal) = file.verdict() {
            told.entry(refusal.number).or_default().push(refusal);
        }
    }
    let refused: usize = told.values().map(Vec::len).sum();
    let passed = files.len() - refused;
    tally
        .notes
        .push(format!("full check: fine: files {passed}"));
    let numbers = opening::NUMBERS.into_iter().chain(LATER).chain(FAULTS);
    let found: BTreeSet<u8> = told.keys().copied().collect();
    tally.same("refusals of the full check", found, numbers.collect());
    for (number, told) in told {
        let places: BTreeSet<u64> = told.iter().map(|refusal| refusal.place).collect();
        let groups: BTreeSet<u64> = told.iter().map(|refusal| refusal.beside).collect();
        let enough = match number {
            10 | 11 | 13 | 14 | 36 | 37 => places.len() >= 4,
            22 => places.len() >= 8,
            28 => places == BTreeSet::from([0]) && groups.len() >= 3,
            _ if FAULTS.contains(&number) => places.len() >= 5 && groups.len() >= 3,
            _ => places == BTreeSet::from([0]),
        };
        let what = format!("full check: refusal {number:2}");
        tally.same(&what, enough && told.len() >= 2, true);
        let note = format!("{what}: files {}, places {}", told.len(), places.len());
        tally.notes.push(match FAULTS.contains(&number) {
            true => format!("{note}, groups {}", groups.len()),
            false => note,
        });
    }
}

/// The files made by hand have each fault at each of its places.
fn check_spots(tally: &mut Tally, files: &[CheckFile]) {
    let mut spots = Spots::default();
    for file in files {
        if let Some(Err(refusal)) = file.intended {
            if FAULTS.contains(&refusal.number) {
                let record = open(&file.bytes).expect("a fault of a group").record;
                let group = group_bytes(&file.bytes, &record, refusal.beside as usize);
                spots.note(group, refusal);
            }
        }
    }
    spots.check(tally, "full check");
}

/// Each byte of some files changed. A change in a section is seen, by its sum
/// if not earlier; a change in a gap is not; and the read-out of a header with
/// another minor or other ids is told.
fn check_changed_bytes(tally: &mut Tally, files: &[CheckFile]) {
    for name in [
        "example",
        "board",
        "full",
        "check-gaps-of-ones",
        "indexed",
        "starts-gaps-everywhere",
    ] {
        let found = files.iter().find(|file| file.name == name);
        let file = &found.expect("a file of the corpus").bytes;
        let rows = open(file).expect("a sound file").rows;
        // The first name comes after the section count and the first row.
        let footer_place = rows[0].name_place as usize - 30;
        for at in 0..file.len() {
            let mut changed = file.clone();
            changed[at] ^= 0x10;
            let place = at as u128;
            let entry = rows.iter().position(|row| {
                let begin = u128::from(row.range.offset);
                (begin..row.range.end()).contains(&place)
            });
            let right = match full_check(&changed) {
                // The minor, the ids, or a gap.
                Ok(_) => at == 9 || (16..footer_place).contains(&at) && entry.is_none(),
                Err(Refusal {
                    number: 22, place, ..
                }) => entry == Some(place as usize),
                Err(Refusal { number, .. }) => opening::NUMBERS.contains(&number),
            };
            tally.same(&format!("{name} changed at {at}"), right, true);
        }
    }
}
