//! Checks of the lookups and of their corpus.

mod starts;

use super::groups::{self, check_fault, group_bytes, Spots, FAULTS};
use super::Tally;
use crate::corpus::lookup_calls::{
    self, Call, Intended, LentRecord, LookupFile, Outcome, Rooms, LONGEST_FILE,
};
use crate::corpus::open_files;
use crate::format::bound;
use crate::groups::{partners, Edge, Form, Group};
use crate::lookup::{lookup_from_record, partners_from_record, Answer, Outputs};
use crate::numbers::{id_number, id_of, read_le, Id};
use crate::open::{bytes_of, open, OpenedRecord, Range};
use crate::refusal::Refusal;
use std::cmp::Ordering;
use std::collections::{BTreeMap, BTreeSet};

/// The most keys that a search compares: 2^24 keys are halved to none in 25
/// steps.
const MOST_COMPARED: u32 = 25;

pub fn check(tally: &mut Tally) {
    let files = lookup_calls::files();
    check_names(tally, &files);
    check_sizes(tally, &files);
    check_input(tally, &files);
    let mut told = BTreeMap::new();
    let mut spots = HandMade::default();
    let mut indexed = Vec::new();
    for file in &files {
        let opened = open(&file.bytes).map(|opened| opened.record);
        for call in &file.calls {
            let outcome = call.outcome(&file.bytes);
            if let Some(intended) = call.intended {
                tally.same(&call.name, outcome.told(), intended);
            }
            count(&mut told, call, &outcome);
            check_untouched(tally, call, &outcome);
            check_edges(tally, file, call, &outcome);
            let lent = call.record.as_ref().map(LentRecord::opened);
            let Some(record) = lent.as_ref().or(opened.as_ref().ok()) else {
                continue;
            };
            check_search(tally, file, call, &outcome, record);
            check_group(tally, file, call, &outcome, record);
            check_refused(tally, file, call, &outcome, record);
            spots.note(file, call, record);
            starts::check_call(tally, file, call, &outcome, record);
            indexed.extend(starts::case(file, call, record, opened.as_ref().ok()));
            if call.record.is_none() {
                check_by_opening(tally, file, call, &outcome, record);
            }
        }
    }
    check_told(tally, told);
    starts::check_sorts(tally, &indexed);
    spots.one_call.check(tally, "lookups on the file alone");
    spots.by_record.check(tally, "lookups by a record");
    check_bounds(tally);
    check_changed_bytes(tally, &files);
}

/// The record of opening gives what the one call gives.
fn check_by_opening(
    tally: &mut Tally,
    file: &LookupFile,
    call: &Call,
    outcome: &Outcome,
    record: &OpenedRecord,
) {
    let again = call.outcome_with(&file.bytes, Some(record));
    let what = format!("{} by the record of opening", call.name);
    tally.same(&what, &again, outcome);
}

fn check_names(tally: &mut Tally, files: &[LookupFile]) {
    let mut seen = BTreeSet::new();
    for call in files.iter().flat_map(|file| &file.calls) {
        let name = &call.name;
        let letter = |c: char| c.is_ascii_lowercase() || c.is_ascii_digit();
        let words = name
            .split('-')
            .all(|word| !word.is_empty() && word.chars().all(letter));
        let good = words && name.len() <= 80;
        tally.same(&format!("form of the name {name}"), good, true);
        tally.same(&format!("only one call {name}"), seen.insert(name), true);
    }
    // A name tells one file, in both corpora.
    let mut bytes: BTreeMap<String, Vec<u8>> = open_files::small()
        .into_iter()
        .map(|file| (file.name, file.bytes))
        .collect();
    for file in files {
        let known = bytes
            .entry(file.name.clone())
            .or_insert_with(|| file.bytes.clone());
        let what = format!("only one file {}", file.name);
        tally.same(&what, *known == file.bytes, true);
    }
}

fn check_sizes(tally: &mut Tally, files: &[LookupFile]) {
    let input = lookup_calls::stdin(files).len();
    let output = lookup_calls::stdout(files).len();
    tally.same("lookup input at most 2300000", input <= 2_300_000, true);
    tally.same("lookup output at most 1550000", output <= 1_550_000, true);
    for file in files {
        let within = file.bytes.len() <= LONGEST_FILE;
        tally.same(&format!("size of {}", file.name), within, true);
        for call in &file.calls {
            let Rooms {
                partners,
                logs,
                marks,
            } = call.rooms;
            let most = Rooms::MOST;
            let within = partners <= most.partners && logs <= most.logs && marks <= most.marks;
            tally.same(&format!("rooms of {}", call.name), within, true);
        }
    }
    let calls = || files.iter().flat_map(|file| &file.calls);
    tally.notes.push(format!(
        "corpus of lookups: {} files, {} calls, {input} bytes in, {output} bytes out",
        files.len(),
        calls().count()
    ));
    let intended = calls().filter(|call| call.intended.is_some()).count();
    tally
        .notes
        .push(format!("lookups: calls with an intended answer {intended}"));
}

/// The input falls apart into its items again.
fn check_input(tally: &mut Tally, files: &[LookupFile]) {
    let input = lookup_calls::stdin(files);
    let mut reader = Reader { rest: &input };
    for file in files {
        let kind = reader.number(1);
        let length = reader.number(4);
        let same = kind == 1 && reader.take(length) == file.bytes;
        tally.same(&format!("input of {}", file.name), same, true);
        for call in &file.calls {
            // The intention is not told.
            let mut read = reader.call();
            read.intended = call.intended;
            tally.same(&format!("input of {}", call.name), &read, call);
        }
    }
    tally.same("lookup input read to its end", reader.rest.len(), 0);
}

struct Reader<'a> {
    rest: &'a [u8],
}

impl<'a> Reader<'a> {
    fn take(&mut self, count: u64) -> &'a [u8] {
        let (taken, rest) = self.rest.split_at(self.rest.len().min(count as usize));
        self.rest = rest;
        taken
    }

    fn number(&mut self, width: u64) -> u64 {
        match self.take(width) {
            [] => 0,
            bytes => read_le(bytes),
        }
    }

    fn call(&mut self) -> Call {
        let kind = self.number(1);
        let name_length = self.number(1);
        Call {
            name: String::from_utf8_lossy(self.take(name_length)).into_owned(),
            full: self.number(1) == 1,
            key: self.take(16).try_into().unwrap_or_default(),
            rooms: Rooms {
                partners: self.number(4) as u32,
                logs: self.number(4) as u32,
                marks: self.number(4) as u32,
            },
            record: (kind == 3).then(|| self.record()),
            intended: None,
        }
    }

    fn record(&mut self) -> LentRecord {
        let mut range = || Range {
            offset: self.number(8),
            length: self.number(8),
        };
        LentRecord {
            keys: range(),
            offsets: range(),
            partners: range(),
            logs: range(),
            dead: range(),
            marked: self.number(1) == 1,
            key_count: self.number(8),
            edge_count: self.number(8),
            offset_bits: self.number(1) as u8,
            starts: Range {
                offset: self.number(8),
                length: self.number(8),
            },
            indexed: self.number(1) == 1,
        }
    }
}

/// A refusal or absence writes nothing, and nothing is written past an answer.
fn check_untouched(tally: &mut Tally, call: &Call, outcome: &Outcome) {
    let mut fresh = call.rooms.fresh();
    if let Ok(Answer::Found { degree, .. }) = outcome.answer {
        let degree = degree as usize;
        let written = &outcome.buffers;
        fresh.partners[..16 * degree].copy_from_slice(&written.partners[..16 * degree]);
        if call.full {
            fresh.logs[..degree].copy_from_slice(&written.logs[..degree]);
            fresh.marks[..degree].copy_from_slice(&written.marks[..degree]);
        }
    }
    let what = format!("{} leaves the rest", call.name);
    tally.same(&what, fresh == outcome.buffers, true);
}

/// Where the edges of a sound file are at hand, the answer is theirs: of all
/// keys one is the same, or none.
fn check_edges(tally: &mut Tally, file: &LookupFile, call: &Call, outcome: &Outcome) {
    let Some(groups) = &file.groups else {
        return;
    };
    let Some(index) = groups.iter().position(|group| group.key == call.key) else {
        tally.same(&call.name, outcome.told(), Intended::Absent);
        return;
    };
    let edges = &groups[index].edges;
    let degree = edges.len();
    let needed = Rooms::exact(degree as u32);
    let enough = call.rooms.partners >= needed.partners
        && (!call.full || call.rooms.logs.min(call.rooms.marks) >= needed.logs);
    if !enough {
        let refusal = Refusal::at(20, degree as u64);
        tally.same(&call.name, outcome.told(), Intended::Refused(refusal));
        return;
    }
    let found = Intended::Found {
        degree: degree as u64,
        index: index as u64,
    };
    tally.same(&call.name, outcome.told(), found);
    for (i, edge) in edges.iter().enumerate() {
        let partner = &outcome.buffers.partners[16 * i..][..16];
        tally.same(&call.name, partner, &edge.partner[..]);
        if call.full {
            tally.same(&call.name, outcome.buffers.logs[i], edge.log);
            tally.same(&call.name, outcome.buffers.marks[i], u8::from(edge.dead));
        }
    }
}

/// The search by another way: each half is a run of keys of its own.
fn halves(keys: &[u128], key: u128) -> (Option<usize>, u32) {
    let Some(middle) = keys.get(keys.len() / 2) else {
        return (None, 0);
    };
    let (before, after) = (&keys[..keys.len() / 2], &keys[keys.len() / 2 + 1..]);
    match middle.cmp(&key) {
        Ordering::Equal => (Some(before.len()), 1),
        Ordering::Greater => {
            let (index, compared) = halves(before, key);
            (index, compared + 1)
        }
        Ordering::Less => {
            let (index, compared) = halves(after, key);
            (index.map(|index| before.len() + 1 + index), compared + 1)
        }
    }
}

/// The count of compared keys is that of the other search, and its index.
fn check_search(
    tally: &mut Tally,
    file: &LookupFile,
    call: &Call,
    outcome: &Outcome,
    record: &OpenedRecord,
) {
    let (index, compared) = match outcome.answer {
        Ok(Answer::Found {
            index, compared, ..
        }) => (Some(index as usize), compared),
        Ok(Answer::Absent { compared }) => (None, compared),
        Err(_) => return,
    };
    let keys: Vec<u128> = bytes_of(&file.bytes, record.keys)
        .chunks_exact(16)
        .map(|id| id_number(id.try_into().expect("16 bytes")))
        .collect();
    let what = format!("search of {}", call.name);
    tally.same(
        &what,
        (index, compared),
        halves(&keys, id_number(&call.key)),
    );
    let most = (keys.len() as u64 + 1).next_power_of_two().ilog2();
    tally.same(&what, compared <= most.min(MOST_COMPARED), true);
}

/// The partners that were found, written as a group, make the bytes that they
/// were read from.
fn check_group(
    tally: &mut Tally,
    file: &LookupFile,
    call: &Call,
    outcome: &Outcome,
    record: &OpenedRecord,
) {
    let Ok(Answer::Found { degree, index, .. }) = outcome.answer else {
        return;
    };
    let group = group_bytes(&file.bytes, record, index as usize);
    let edges: Vec<Edge> = outcome.buffers.partners[..16 * degree as usize]
        .chunks_exact(16)
        .map(|id| Edge {
            partner: id.try_into().expect("16 bytes"),
            log: 0,
            dead: false,
        })
        .collect();
    let rewritten = |form: Form| {
        let group = Group {
            key: call.key,
            form,
            edges: edges.clone(),
        };
        partners(&[group]).bytes
    };
    let same = rewritten(Form::Split) == group || rewritten(Form::Dense) == group;
    tally.same(&format!("{} written again", call.name), same, true);
}

/// The fault that is told is in the bytes of the group of the key, which is the
/// one that stands beside it.
fn check_refused(
    tally: &mut Tally,
    file: &LookupFile,
    call: &Call,
    outcome: &Outcome,
    record: &OpenedRecord,
) {
    let Err(refusal) = outcome.answer else {
        return;
    };
    if !FAULTS.contains(&refusal.number) {
        return;
    }
    let index = refusal.beside as usize;
    let key = &bytes_of(&file.bytes, record.keys)[16 * index..][..16];
    tally.same(&call.name, key, &call.key[..]);
    let group = group_bytes(&file.bytes, record, index);
    check_fault(tally, &call.name, group, refusal);
}

/// Where the calls made by hand have their faults.
#[derive(Default)]
struct HandMade {
    one_call: Spots,
    by_record: Spots,
}

impl HandMade {
    fn note(&mut self, file: &LookupFile, call: &Call, record: &OpenedRecord) {
        let Some(Intended::Refused(refusal)) = call.intended else {
            return;
        };
        if !FAULTS.contains(&refusal.number) {
            return;
        }
        let group = group_bytes(&file.bytes, record, refusal.beside as usize);
        match call.record {
            None => self.one_call.note(group, refusal),
            Some(_) => self.by_record.note(group, refusal),
        }
    }
}

/// How often each answer comes, on the file alone and by a record, and at which
/// places.
#[derive(Default)]
struct Told {
    one_call: usize,
    by_record: usize,
    places: BTreeSet<u64>,
    beside: BTreeSet<u64>,
}

const FOUND: &str = "found";
const ABSENT: &str = "absent";

fn refusal_word(number: u8) -> String {
    format!("refusal {number:2}")
}

fn count(told: &mut BTreeMap<String, Told>, call: &Call, outcome: &Outcome) {
    let (answer, place, beside) = match outcome.told() {
        Intended::Found { index, .. } => (FOUND.to_string(), index, 0),
        Intended::Absent => (ABSENT.to_string(), 0, 0),
        Intended::Refused(Refusal {
            number,
            place,
            beside,
        }) => (refusal_word(number), place, beside),
    };
    let told = told.entry(answer).or_default();
    told.beside.insert(beside);
    match call.record {
        None => told.one_call += 1,
        Some(_) => told.by_record += 1,
    }
    told.places.insert(place);
}

/// Every answer comes that the rules know of, and no other, each where it may:
/// 21 only by a record, the other refusals of opening only without one, but for
/// 14.
fn check_told(tally: &mut Tally, mut told: BTreeMap<String, Told>) {
    let mut enough = |answer: &str, one_call: bool, by_record: bool, places: usize| {
        let told = told.remove(answer).unwrap_or_default();
        let what = format!("lookups: {answer}");
        tally.same(&what, told.one_call > 0, one_call);
        tally.same(&what, told.by_record > 0, by_record);
        tally.same(&what, told.places.len() >= places, true);
        let groups = check_beside(tally, answer, &told.beside);
        tally.notes.push(format!(
            "{what}: calls {}, by record {}, places {}{groups}",
            told.one_call + told.by_record,
            told.by_record,
            told.places.len()
        ));
    };
    enough(FOUND, true, true, 10);
    enough(ABSENT, true, true, 1);
    for number in (1..=16).chain(19..=21).chain(28..=37) {
        let answer = &refusal_word(number)[..];
        match number {
            14 => enough(answer, true, true, 4),
            21 => enough(answer, false, true, 1),
            36 => enough(answer, true, false, 4),
            37 => enough(answer, true, false, 2),
            1..=15 => enough(answer, true, false, 1),
            20 => enough(answer, true, true, 8),
            19 => enough(answer, true, true, 3),
            groups::DEGREE_ZERO => enough(answer, true, true, 1),
            _ => enough(answer, true, true, 6),
        }
    }
    tally.same("lookups: other answers", told.len(), 0);
}

/// The faults of groups come in several groups, which their note tells; nothing
/// else has a second place.
fn check_beside(tally: &mut Tally, answer: &str, beside: &BTreeSet<u64>) -> String {
    let what = format!("lookups: second place of {answer}");
    if FAULTS.map(refusal_word).contains(&answer.to_string()) {
        tally.same(&what, beside.len() >= 10, true);
        return format!(", groups {}", beside.len());
    }
    tally.same(&what, beside, &BTreeSet::from([0]));
    String::new()
}

/// The bounds of 2^30 bytes, 2^24 keys and 2^26 edges, by records of files of
/// zeros. Hardly any of their bytes is ever touched.
fn check_bounds(tally: &mut Tally) {
    let mut file = vec![0; bound::FILE as usize];
    check_largest_counts(tally, &file);
    check_longest_search(tally, &mut file);
    file.push(0);
    let what = "2^30 + 1 bytes";
    check_no_room(tally, what, &file, record_at_0(1, 1), ABOVE, refused(21, 0));
}

/// A key above all that such a file holds.
const ABOVE: Id = [0xFF; 16];

fn refused(number: u8, place: u64) -> Result<Answer, Refusal> {
    Err(Refusal::at(number, place))
}

fn absent(compared: u32) -> Result<Answer, Refusal> {
    Ok(Answer::Absent { compared })
}

/// A record of these counts whose ranges all begin with the file, and without
/// partners.
fn record_at_0(keys: u64, edges: u64) -> OpenedRecord {
    let range = |length| Range { offset: 0, length };
    OpenedRecord {
        keys: range(16 * keys),
        offsets: range(3 * (keys + 1)),
        partners: range(0),
        logs: range(8 * edges),
        tombstones: Some(range(edges.div_ceil(8))),
        key_count: keys,
        edge_count: edges,
        offset_bits: 24,
        starts: Some(range(8 * (keys + 1))),
    }
}

/// Both lookups by a record, with no room in any output.
fn check_no_room(
    tally: &mut Tally,
    what: &str,
    file: &[u8],
    record: OpenedRecord,
    key: Id,
    answer: Result<Answer, Refusal>,
) {
    let outputs = Outputs {
        partners: &mut [],
        logs: &mut [],
        marks: &mut [],
    };
    let found = lookup_from_record(file, &record, &key, outputs);
    tally.same(what, found, answer);
    let found = partners_from_record(file, &record, &key, &mut []);
    tally.same(what, found, answer);
}

/// A file of 2^30 zeros, with as many keys or edges as there may be, and with
/// one more.
fn check_largest_counts(tally: &mut Tally, file: &[u8]) {
    let (keys, edges) = (bound::KEYS, bound::EDGES);
    for (what, record, answer) in [
        ("2^30 bytes", record_at_0(1, 1), absent(1)),
        ("2^24 keys", record_at_0(keys, 0), absent(24)),
        ("2^26 edges", record_at_0(1, edges), absent(1)),
        ("2^24 + 1 keys", record_at_0(keys + 1, 0), refused(21, 0)),
        ("2^26 + 1 edges", record_at_0(1, edges + 1), refused(21, 0)),
    ] {
        check_no_room(tally, what, file, record, ABOVE, answer);
    }
}

/// The longest way through 2^24 keys is to the left: 2^23, 2^22 and so on to 1
/// and 0.
fn check_longest_search(tally: &mut Tally, file: &mut [u8]) {
    let keys = bound::KEYS;
    for index in (0..24).map(|power| 1 << power).chain([0]) {
        file[16 * index + 15] = 2;
    }
    let key = id_of(0, 1);
    let record = record_at_0(keys, 0);
    check_no_room(tally, "25 compared", file, record, key, absent(25));
    // The offsets lie among zeros, and the group that is met first is empty.
    let mut record = record_at_0(keys, 0);
    record.offsets.offset = bound::FILE / 2;
    let empty = Err(Refusal::in_group(33, 0, keys / 2));
    let key = id_of(0, 2);
    check_no_room(tally, "middle of 2^24", file, record, key, empty);
}

/// Lookups have an answer for any bytes, and one of the right form: each byte
/// of some files changed, with the record of the unchanged file.
fn check_changed_bytes(tally: &mut Tally, files: &[LookupFile]) {
    for name in [
        "one-edge",
        "three-groups-24-bits",
        "full",
        "tombstones",
        "indexed",
    ] {
        let found = files.iter().find(|file| file.name == name);
        let file = found.expect("a file of the corpus");
        let record = open(&file.bytes).expect("a sound file").record;
        for at in 0..file.bytes.len() {
            for change in [0x01, 0x80, 0xFF] {
                let mut changed = file.bytes.clone();
                changed[at] ^= change;
                for call in file.calls.iter().filter(|call| call.record.is_none()) {
                    let outcome = call.outcome_with(&changed, Some(&record));
                    check_form(tally, call, &outcome);
                }
            }
        }
    }
}

fn check_form(tally: &mut Tally, call: &Call, outcome: &Outcome) {
    let formed = match outcome.answer {
        Ok(Answer::Absent { compared }) => compared <= MOST_COMPARED,
        Ok(Answer::Found {
            degree, compared, ..
        }) => degree > 0 && 0 < compared && compared <= MOST_COMPARED,
        Err(Refusal { number, beside, .. }) => match number {
            14 | 20 => beside == 0,
            19 => beside == 0 && call.full,
            _ => FAULTS.contains(&number),
        },
    };
    tally.same("a lookup's answer of the right form", formed, true);
}
