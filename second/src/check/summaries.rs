//! Checks of the summary: its lines against a second walk, over the records of
//! the read-out.

mod sorts;

use super::groups::group_bytes;
use super::Tally;
use crate::batch::{EDGE, HEADING};
use crate::corpus::check_files::{self, CheckFile, ROOM};
use crate::groups::{self, Edge, Form, Group};
use crate::numbers::{hex, id_of};
use crate::open::open;
use crate::summary::summary;
use crate::varint::{self, Read};
use std::collections::{BTreeMap, BTreeSet};

pub fn check(tally: &mut Tally, files: &[CheckFile]) {
    check_large_degrees(tally);
    let output = check_files::stdout(files);
    let output = String::from_utf8(output).expect("lines of text");
    let lines: Vec<&str> = output
        .lines()
        .filter(|line| line.contains(": summary "))
        .collect();
    tally.same("lines of summaries", lines.len(), files.len());
    for (file, line) in files.iter().zip(lines) {
        check_line(tally, file, line);
    }
    sorts::check(tally, files);
}

/// One key of a degree that no file of the corpus has room for, and its bucket.
fn check_large_degrees(tally: &mut Tally) {
    for (degree, bucket) in [
        (4_095, 11),
        (4_096, 12),
        (5_000, 12),
        (65_535, 15),
        (65_536, 16),
    ] {
        let edge = |i| Edge {
            partner: id_of(9, i),
            log: i,
            dead: false,
        };
        let group = Group {
            key: id_of(1, 2),
            form: Form::Split,
            edges: (0..degree).map(edge).collect(),
        };
        let found = summary(&groups::layout(&[group], 24).bytes()).expect("a sound file");
        let what = format!("summary of degree {degree}");
        tally.same(&what, found.largest_degree, degree);
        let mut buckets = [0; 64];
        buckets[bucket] = 1;
        tally.same(&what, found.buckets, buckets);
    }
}

/// The line is what its author wrote down, and what the read-out gives. Where
/// the read-out is refused, the summary is refused alike.
fn check_line(tally: &mut Tally, file: &CheckFile, line: &str) {
    let name = &file.name;
    let (told, output) = file.read_out(ROOM);
    let expected = match told {
        Ok(size) => line_of(&output[..size as usize]),
        Err(refusal) => refusal.to_string(),
    };
    let begin = format!("{name}: summary ");
    let said = line.strip_prefix(&begin).unwrap_or_default();
    tally.same(name, said, &expected);
    if let Some(intended) = &file.summed {
        tally.same(name, said, intended);
    }
    if told.is_ok() {
        check_sums(tally, name, said);
        check_degrees(tally, file, said);
    }
}

/// The same line from the records of a batch: sets and a map order what the
/// summary compares, and a degree's bucket is how often it can be halved.
pub fn line_of(batch: &[u8]) -> String {
    let mut degrees: BTreeMap<&[u8], u64> = BTreeMap::new();
    let mut logs = BTreeSet::new();
    let mut kinds = [0; 4];
    for record in batch[HEADING..].chunks_exact(EDGE) {
        *degrees.entry(&record[1..17]).or_default() += 1;
        logs.insert(log_of(record));
        kinds[usize::from(record[0])] += 1;
    }
    let [_, live, dead, _] = kinds;
    let largest = degrees.values().max().unwrap_or(&0);
    let mut words = vec![
        format!("keys {} edges {}", degrees.len(), live + dead),
        format!("tombstones {dead} degree {largest}"),
        extreme_words(&degrees, &logs).unwrap_or("without edges".to_string()),
        "buckets".to_string(),
    ];
    words.extend(bucket_words(degrees.into_values()));
    words.join(" ")
}

/// The log number of a record of a batch.
fn log_of(record: &[u8]) -> u64 {
    u64::from_le_bytes(record[33..].try_into().expect("8 bytes"))
}

fn extreme_words(degrees: &BTreeMap<&[u8], u64>, logs: &BTreeSet<u64>) -> Option<String> {
    let (smallest, largest) = (degrees.first_key_value()?.0, degrees.last_key_value()?.0);
    let (low, high) = (logs.first()?, logs.last()?);
    let (smallest, largest) = (hex(smallest), hex(largest));
    Some(format!("from {smallest} to {largest} logs {low} to {high}"))
}

fn bucket_words(degrees: impl IntoIterator<Item = u64>) -> Vec<String> {
    let mut buckets: BTreeMap<u32, u64> = BTreeMap::new();
    for mut degree in degrees {
        let mut halved = 0;
        while degree > 1 {
            degree /= 2;
            halved += 1;
        }
        *buckets.entry(halved).or_default() += 1;
    }
    let word = |(i, keys)| format!("{i}:{keys}");
    buckets.into_iter().map(word).collect()
}

/// The number after a word of a line.
fn number(line: &str, word: &str) -> u64 {
    let mut words = line.split(' ').skip_while(|&found| found != word);
    let number = words.nth(1).expect("a word after it");
    number.parse().expect("a number")
}

/// The buckets that a line tells: number and keys.
fn buckets(line: &str) -> Vec<(u32, u64)> {
    let (_, words) = line.split_once(" buckets").expect("buckets");
    let bucket = |word: &str| {
        let (i, keys) = word.split_once(':')?;
        Some((i.parse().ok()?, keys.parse().ok()?))
    };
    let words = words.split_whitespace();
    words.map(|word| bucket(word).expect("I:COUNT")).collect()
}

/// What the numbers of a line say of each other: the buckets hold the keys, the
/// edges are as many as such degrees can have, and the last bucket has the
/// largest degree.
fn check_sums(tally: &mut Tally, name: &str, line: &str) {
    let buckets = buckets(line);
    let sum = |weight: fn(u32) -> u64| -> u64 {
        let weighed = buckets.iter().map(|&(i, keys)| keys * weight(i));
        weighed.sum()
    };
    let edges = number(line, "edges");
    tally.same(name, sum(|_| 1), number(line, "keys"));
    let (least, most) = (sum(|i| 1 << i), sum(|i| (2 << i) - 1));
    tally.same(name, (least..=most).contains(&edges), true);
    tally.same(name, number(line, "tombstones") <= edges, true);
    let largest = number(line, "degree");
    let fits = match buckets.last() {
        None => largest == 0,
        Some(&(i, _)) => (1 << i..2 << i).contains(&largest),
    };
    tally.same(name, fits, true);
}

/// The degrees with which the groups' bytes begin make up the edges, have the
/// largest degree among them, and fill the buckets.
fn check_degrees(tally: &mut Tally, file: &CheckFile, line: &str) {
    let record = open(&file.bytes).expect("a sound file").record;
    let degree = |i: u64| match varint::read(group_bytes(&file.bytes, &record, i as usize), 0) {
        Read::Value { value, .. } => value,
        _ => 0,
    };
    let degrees: Vec<u64> = (0..record.key_count).map(degree).collect();
    let (keys, name) = (degrees.len() as u64, &file.name);
    tally.same(name, number(line, "keys"), keys);
    tally.same(name, number(line, "edges"), degrees.iter().sum());
    let largest = degrees.iter().copied().max().unwrap_or(0);
    tally.same(name, number(line, "degree"), largest);
    let (_, words) = line.split_once(" buckets").expect("buckets");
    tally.same(name, words.trim(), &bucket_words(degrees).join(" "));
}
