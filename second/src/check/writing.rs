//! Checks of the writer and of its corpus.

use super::{check_framed, check_names, summaries, Named, Tally};
use crate::batch::{self, Batch, KeyedEdge};
use crate::corpus::check_files::{self, samples};
use crate::corpus::fresh_output;
use crate::corpus::write_batches::{self, Outcome, WriteBatch, LARGE_ROOM, ROOM};
use crate::format::{bound, flag, kind, HEADER};
use crate::full_check::{full_check, Contents};
use crate::groups::{self, Edge, Form, Group};
use crate::header::header;
use crate::lookup::{lookup, Answer, Outputs};
use crate::numbers::{id_of, read_le, Id};
use crate::open::{bytes_of, open};
use crate::read_out::read_out;
use crate::refusal::Refusal;
use crate::write::{form, needed, over_bounds, split_cost, write};
use std::collections::{BTreeMap, BTreeSet};

pub fn check(tally: &mut Tally) {
    check_marked_cases(tally);
    check_widths(tally);
    check_bounds(tally);
    let small = write_batches::small();
    let large = write_batches::large();
    check_corpus(tally, &small, &large);
    for batch in &small {
        check_batch(tally, batch, ROOM, 1);
    }
    for batch in &large {
        // Not each key, as each lookup opens the file again.
        check_batch(tally, batch, LARGE_ROOM, 997);
    }
    check_large_degrees(tally, &large);
    let all: Vec<&WriteBatch> = small.iter().chain(&large).collect();
    check_start_counts(tally, &all);
    check_refusals(tally, &small);
    check_beginnings(tally, &small);
    check_example(tally, &small);
    check_rewritten(tally);
}

fn edges(partners: &[(u64, u64)]) -> Vec<Edge> {
    partners
        .iter()
        .map(|&(upper, lower)| Edge {
            partner: id_of(upper, lower),
            log: 7,
            dead: false,
        })
        .collect()
}

/// Cases 6 to 8 and 10 of the format's rules. Case 9 is a fault that no writer
/// makes: two partners that are the same are refused as a batch.
fn check_marked_cases(tally: &mut Tally) {
    for (upper, cost, chosen) in [((1 << 49) - 1, 15, Form::Split), (1 << 49, 16, Form::Dense)] {
        let edges = edges(&[(upper, 1)]);
        let what = format!("upper half {upper}");
        tally.same(&what, split_cost(&edges), cost);
        tally.same(&what, form(&edges, 1), chosen);
    }
    let two = edges(&[(5, 1), (5, 2)]);
    tally.same("two partners", form(&two, 1), Form::Split);
    let twice = keyed(id_of(1, 2), &edges(&[(5, 2), (5, 2)]));
    let refused = Err(Refusal::at(25, 91));
    tally.same("a partner twice", needed(&batch_of(twice)), refused);

    let many: Vec<Edge> = (0..1_026).flat_map(|i| edges(&[(0, i)])).collect();
    for (degree, keys, chosen) in [
        (1_025, 65_536, Form::Dense),
        (1_024, 65_536, Form::Split),
        (1_024, 1, Form::Split),
        (1_025, 1, Form::Dense),
        (1_025, 65_664, Form::Dense),
        (1_025, 65_665, Form::Split),
        (1_026, 65_792, Form::Dense),
        (1_026, 65_793, Form::Split),
    ] {
        let what = format!("degree {degree} with {keys} keys");
        tally.same(&what, form(&many[..degree], keys), chosen);
    }
}

fn keyed(key: Id, edges: &[Edge]) -> Vec<KeyedEdge> {
    edges.iter().map(|&edge| KeyedEdge { key, edge }).collect()
}

fn batch_of(edges: Vec<KeyedEdge>) -> Vec<u8> {
    let ids = [[1; 16], [2; 16], [3; 16]];
    Batch {
        inverse: false,
        ids,
        edges,
    }
    .bytes()
}

/// Partner sections of 2^24 - 1 bytes and of 2^24: offsets of 24 and 32 bits.
/// A dense group has 12 bytes less than 2^24, and a small one the rest.
fn check_widths(tally: &mut Tally) {
    let many: Vec<Edge> = (0..1_048_575).flat_map(|i| edges(&[(1, i)])).collect();
    for (upper, partner_bytes, bits) in [(127, (1 << 24) - 1, 24), (128, 1 << 24, 32)] {
        let what = format!("{partner_bytes} bytes of partners");
        let mut all = keyed(id_of(1, 1), &many);
        all.extend(keyed(id_of(1, 2), &edges(&[(upper, 9)])));
        let batch = batch_of(all);
        let size = needed(&batch).unwrap_or(0) as usize;
        let mut file = vec![0; size];
        tally.same(&what, write(&batch, &mut file), Ok(size as u64));
        let record = open(&file).map(|opened| opened.record);
        let found = record.map(|record| (record.partners.length, record.offset_bits));
        tally.same(&what, found, Ok((partner_bytes, bits)));
        let mut back = vec![0; batch.len()];
        let told = read_out(&file, &mut back);
        tally.same(&what, told, Ok(batch.len() as u64));
        tally.same(&what, back == batch, true);
    }
}

/// Check 26 by numbers alone: batches that pass a bound have 688 MB or more.
fn check_bounds(tally: &mut Tally) {
    let (keys, edges, file) = (bound::KEYS, bound::EDGES, bound::FILE);
    for (over, expected) in [
        (over_bounds(keys, edges, file), false),
        (over_bounds(0, 0, 218), false),
        (over_bounds(keys + 1, edges, file), true),
        (over_bounds(keys, edges + 1, file), true),
        (over_bounds(keys, edges, file + 1), true),
    ] {
        tally.same("bounds of the writer", over, expected);
    }
}

fn check_corpus(tally: &mut Tally, small: &[WriteBatch], large: &[WriteBatch]) {
    let named = |batch: &WriteBatch| (batch.name.clone(), batch.bytes.clone());
    let items: Vec<Named> = small.iter().chain(large).map(named).collect();
    check_names(tally, &items);
    let input = write_batches::stdin(small);
    check_framed(tally, &input, &items[..small.len()]);
    let output = write_batches::stdout(small);
    tally.same(
        "write input at most 1500000",
        input.len() <= 1_500_000,
        true,
    );
    for batch in small {
        let within = batch.bytes.len() <= ROOM;
        tally.same(&format!("size of {}", batch.name), within, true);
    }
    let intended = small.iter().filter(|batch| batch.intended.is_some());
    tally.notes.push(format!(
        "corpus of the writer: {} batches, {} with an intended outcome, \
         {} bytes in, {} bytes out; {} large batches",
        small.len(),
        intended.count(),
        input.len(),
        output.len(),
        large.len()
    ));
}

/// What is needed is as intended, and what is written is that much. A file is
/// sound, as the writer's choices want it, and reads back. `stride` says of
/// which keys the lookups are tried.
fn check_batch(tally: &mut Tally, batch: &WriteBatch, room: usize, stride: usize) {
    let name = &batch.name;
    let told = needed(&batch.bytes);
    if let Some(intended) = batch.intended {
        tally.same(name, told, intended);
    }
    let Outcome {
        told: wrote,
        output,
    } = batch.write(room);
    let expected = match told {
        Ok(place) if place > room as u64 => Err(Refusal::at(20, place)),
        _ => told,
    };
    tally.same(name, wrote, expected);
    let size = wrote.unwrap_or(0) as usize;
    let untouched = output[size..] == fresh_output(room)[size..];
    tally.same(&format!("{name} leaves the rest"), untouched, true);
    if wrote.is_err() {
        return;
    }
    let file = &output[..size];
    tally.same(name, batch.reads_back(file), true);
    let summary = check_files::summary_text(file);
    tally.same(name, summary, summaries::line_of(&batch.bytes));
    let contents = full_check(file).expect("what reads back has passed");
    check_choices(tally, name, file, &contents);
    check_starts(tally, batch, file);
    for group in contents.groups.iter().step_by(stride) {
        check_lookup(tally, name, file, group);
    }
    let short = batch.write(size - 1);
    let place = size as u64;
    tally.same(name, short.told, Err(Refusal::at(20, place)));
    tally.same(name, short.output == fresh_output(size - 1), true);
}

/// The start index of a written file, if there is one, by the records of the
/// batch: each entry counts those of the keys before.
fn check_starts(tally: &mut Tally, batch: &WriteBatch, file: &[u8]) {
    let record = open(file).expect("a sound file").record;
    let edges = batch::parse(&batch.bytes).expect("a batch").edges;
    let keys: BTreeSet<Id> = edges.iter().map(|keyed| keyed.key).collect();
    let what = format!("start index of {}", batch.name);
    tally.same(&what, record.starts.is_some(), keys.len() >= 1_025);
    let Some(range) = record.starts else {
        return;
    };
    let before = |key: Id| edges.partition_point(|keyed| keyed.key < key) as u64;
    let mut counted: Vec<u64> = keys.into_iter().map(before).collect();
    counted.push(edges.len() as u64);
    let entries = bytes_of(file, range).chunks_exact(8);
    let found: Vec<u64> = entries.map(read_le).collect();
    tally.same(&what, found == counted, true);
}

/// There are batches of 1,024, 1,025 and 65,537 keys, with dead edges and
/// without.
fn check_start_counts(tally: &mut Tally, batches: &[&WriteBatch]) {
    let mut found = BTreeSet::new();
    for batch in batches {
        let Ok(parsed) = batch::parse(&batch.bytes) else {
            continue;
        };
        let keys = parsed.edges.chunk_by(|a, b| a.key == b.key).count();
        let any_dead = parsed.edges.iter().any(|keyed| keyed.edge.dead);
        found.insert((keys, any_dead));
    }
    for (keys, any_dead) in [
        (1_024, false),
        (1_024, true),
        (1_025, false),
        (1_025, true),
        (65_537, false),
    ] {
        let what = format!("a batch of {keys} keys, dead edges {any_dead}");
        tally.same(&what, found.contains(&(keys, any_dead)), true);
    }
}

/// The large batches have degrees on both sides of each power of two that the
/// small files have no room for.
fn check_large_degrees(tally: &mut Tally, batches: &[WriteBatch]) {
    let mut found = BTreeSet::new();
    for batch in batches {
        let edges = batch::parse(&batch.bytes).expect("a batch").edges;
        let groups = edges.chunk_by(|a, b| a.key == b.key);
        found.extend(groups.map(<[KeyedEdge]>::len));
    }
    let powers = (11..16).map(|exponent| 1 << exponent);
    let sides = powers.flat_map(|power| [power - 1, power]);
    for degree in sides.chain([5_000, 65_536]) {
        let what = format!("a large batch with degree {degree}");
        tally.same(&what, found.contains(&degree), true);
    }
}

/// The writer's choices, each looked for in the file itself.
fn check_choices(tally: &mut Tally, name: &str, file: &[u8], contents: &Contents) {
    let opened = open(file).expect("a sound file");
    let groups = &contents.groups;
    let any_dead = groups::edges(groups).any(|edge| edge.dead);
    if groups.len() > 65_536 {
        let fences = opened.rows.iter().find(|row| row.kind == kind::FENCES);
        let at = fences.map_or(0, |row| row.range.offset as usize);
        let head = &file[at..][..4];
        tally.same(name, head, &256u32.to_le_bytes()[..]);
    }
    let found: Vec<u16> = opened.rows.iter().map(|row| row.kind).collect();
    tally.same(name, found, kinds_of(groups.len(), any_dead));
    let mut end = HEADER as u64;
    for row in &opened.rows {
        tally.same(
            name,
            (row.codec, row.name_length, row.range.offset),
            (0, 0, end),
        );
        end += row.range.length;
    }
    // The first name comes after the section count and the first row.
    tally.same(name, opened.rows[0].name_place - 30, end);
    let any_dense = groups.iter().any(|group| group.form == Form::Dense);
    let flags = u32::from(any_dead) * flag::TOMBSTONES
        + u32::from(any_dense) * flag::DENSE
        + u32::from(contents.inverse) * flag::INVERSE;
    let header = header(file).expect("a sound file");
    let minor = u8::from(groups.len() > 1_024);
    tally.same(name, (header.minor, header.flags), (minor, flags));
    tally.same(name, opened.record.offset_bits, 24);
    for group in groups {
        tally.same(name, group.form, shorter_form(group, groups.len()));
    }
}

/// The kinds of a written file, in order.
fn kinds_of(key_count: usize, any_dead: bool) -> Vec<u16> {
    let mut kinds = vec![kind::KEYS, kind::OFFSETS, kind::PARTNERS, kind::LOGS];
    if any_dead {
        kinds.push(kind::TOMBSTONES);
    }
    if key_count > 65_536 {
        kinds.push(kind::FENCES);
    }
    if key_count > 1_024 {
        kinds.push(kind::START_INDEX);
    }
    kinds
}

/// The choice of the form by another way: by the bytes that each would have.
fn shorter_form(group: &Group, key_count: usize) -> Form {
    let bytes = |form| {
        let edges = group.edges.clone();
        groups::partners(&[Group {
            form,
            edges,
            ..*group
        }])
        .bytes
        .len()
    };
    let degree = group.edges.len();
    let large = degree >= 1_025 && degree as f64 / 4.0 > (key_count as f64).sqrt();
    if !large && bytes(Form::Split) < bytes(Form::Dense) {
        Form::Split
    } else {
        Form::Dense
    }
}

fn check_lookup(tally: &mut Tally, name: &str, file: &[u8], group: &Group) {
    let degree = group.edges.len();
    let (mut partners, mut logs, mut marks) =
        (vec![0; 16 * degree], vec![0; degree], vec![0; degree]);
    let outputs = Outputs {
        partners: &mut partners,
        logs: &mut logs,
        marks: &mut marks,
    };
    let answer = lookup(file, &group.key, outputs);
    let found = matches!(answer, Ok(Answer::Found { degree: d, .. }) if d == degree as u64);
    tally.same(name, found, true);
    for (i, edge) in group.edges.iter().enumerate() {
        let looked_up = (&partners[16 * i..][..16], logs[i], marks[i]);
        let expected = (&edge.partner[..], edge.log, u8::from(edge.dead));
        tally.same(name, looked_up, expected);
    }
}

/// Every refusal of the writer comes up, but for 26, whose batches are too long.
fn check_refusals(tally: &mut Tally, batches: &[WriteBatch]) {
    let mut places: BTreeMap<u8, Vec<u64>> = BTreeMap::new();
    for batch in batches {
        if let Err(Refusal { number, place, .. }) = batch.write(ROOM).told {
            places.entry(number).or_default().push(place);
        }
    }
    let refused: usize = places.values().map(Vec::len).sum();
    let written = batches.len() - refused;
    tally
        .notes
        .push(format!("writer: wrote: batches {written}"));
    for (number, least) in [(20, 1), (24, 6), (25, 6)] {
        let places = places.remove(&number).unwrap_or_default();
        let distinct: BTreeSet<&u64> = places.iter().collect();
        let what = format!("writer: refusal {number}");
        tally.same(&what, distinct.len() >= least, true);
        tally.notes.push(format!(
            "{what}: batches {}, places {}",
            places.len(),
            distinct.len()
        ));
    }
    tally.same("other refusals of the writer", places.len(), 0);
}

/// Each beginning of a batch is written if it ends with a record, and is cut at
/// its last record if not.
fn check_beginnings(tally: &mut Tally, batches: &[WriteBatch]) {
    for name in ["batch-20-keys-some-dead", "batch-five-keys-inverse"] {
        let found = batches.iter().find(|batch| batch.name == name);
        let whole = &found.expect("a batch of the corpus").bytes;
        for length in 0..whole.len() {
            let edge_bytes = length.checked_sub(batch::HEADING);
            let place = match edge_bytes {
                None => Some(0),
                Some(bytes) if bytes % batch::EDGE != 0 => Some(length - bytes % batch::EDGE),
                Some(_) => None,
            };
            let expected = place.map(|place| Refusal::at(24, place as u64));
            let what = format!("{name} cut to {length}");
            tally.same(&what, needed(&whole[..length]).err(), expected);
        }
    }
}

/// Cases 11 and 12: the heading alone makes 218 bytes; one edge makes the
/// printed example, 256 bytes.
fn check_example(tally: &mut Tally, batches: &[WriteBatch]) {
    let file = |name: &str| {
        let found = batches.iter().find(|batch| batch.name == name);
        let Outcome { told, mut output } = found.expect("a batch of the corpus").write(ROOM);
        output.truncate(told.unwrap_or(0) as usize);
        output
    };
    let heading_only = file("batch-heading-only-forward");
    tally.same("marked case 11", heading_only.len(), 218);
    let example = file("batch-one-edge-forward");
    tally.same("marked case 12", example.len(), 256);
    let same = example == samples::example().bytes();
    tally.same("the written example", same, true);
}

/// The batch of any file that passes is written, and reads back.
fn check_rewritten(tally: &mut Tally) {
    for file in check_files::files() {
        let (told, output) = file.read_out(check_files::ROOM);
        let Ok(size) = told else {
            continue;
        };
        let batch = WriteBatch {
            name: format!("{} written again", file.name),
            bytes: output[..size as usize].to_vec(),
            intended: None,
        };
        let Outcome { told, output } = batch.write(ROOM);
        let written = &output[..told.unwrap_or(0) as usize];
        tally.same(&batch.name, batch.reads_back(written), true);
    }
}
