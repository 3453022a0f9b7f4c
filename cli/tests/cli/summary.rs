//! `edge-sst summary`.

use crate::corpora::{inputs, lines};
use crate::json::Json;
use crate::run::{folder, run_on, sample, second};
use std::collections::HashMap;

/// What is printed of a file.
fn told(file: &[u8]) -> String {
    String::from_utf8(run_on(&["summary", "-"], file).fine()).unwrap()
}

#[test]
fn the_board_in_text() {
    let expected = "\
keys                 12
edges                40
tombstones           6
smallest key         018f6e2a7c1070000000000000000001
largest key          018f6e2a7c1070030080000000000000
smallest log number  1001
largest log number   1040
largest degree       8
degree 1: 3 keys
degrees 2 to 3: 4 keys
degrees 4 to 7: 4 keys
degrees 8 to 15: 1 key
";
    assert_eq!(told(&sample("board.edges")), expected);
}

/// The file of keys 1, 2, 3 and so on with so many edges each. The edges of odd keys are
/// dead; log numbers fall from 2^64 - 1.
fn made(degrees: &[u32]) -> Vec<u8> {
    let mut batch = vec![3, 0];
    batch.extend([0x77; 48]);
    let id = |number: u32| [&[0; 12][..], &number.to_be_bytes()].concat();
    let mut log = u64::MAX;
    for (key, degree) in (1..).zip(degrees) {
        for partner in 0..*degree {
            batch.push(if key % 2 == 1 { 2 } else { 1 });
            batch.extend([id(key), id(partner)].concat());
            batch.extend(log.to_le_bytes());
            log -= 1;
        }
    }
    second(&["write"], &batch)
}

#[test]
fn degrees_1_to_4_and_5000() {
    let expected = "\
keys                 5
edges                5010
tombstones           9
smallest key         00000000000000000000000000000001
largest key          00000000000000000000000000000005
smallest log number  18446744073709546606
largest log number   18446744073709551615
largest degree       5000
degree 1: 1 key
degrees 2 to 3: 2 keys
degrees 4 to 7: 1 key
degrees 4096 to 8191: 1 key
";
    assert_eq!(told(&made(&[2, 1, 3, 5000, 4])), expected);
}

#[test]
fn a_file_without_edges_has_no_smallest_and_largest() {
    let file = made(&[]);
    let expected = "\
keys                 0
edges                0
tombstones           0
smallest key         none
largest key          none
smallest log number  none
largest log number   none
largest degree       0
";
    assert_eq!(told(&file), expected);
    let object = Json::parse(json(&file).trim_end());
    for name in EXTREMES {
        assert_eq!(object.at(name), &Json::Null);
    }
}

const EXTREMES: [&str; 4] = [
    "smallest_key",
    "largest_key",
    "smallest_log_number",
    "largest_log_number",
];

fn json(file: &[u8]) -> String {
    let told = run_on(&["summary", "--json", "-"], file).fine();
    String::from_utf8(told).unwrap()
}

/// All 64 buckets are there; log numbers are strings.
#[test]
fn the_example_in_json() {
    let buckets = format!("[1{}]", ",0".repeat(63));
    let expected = format!(
        "{{\"file\":\"-\",\"ok\":true,\"keys\":1,\"edges\":1,\"tombstones\":0,\
         \"smallest_key\":\"00000000000000010000000000000002\",\
         \"largest_key\":\"00000000000000010000000000000002\",\
         \"smallest_log_number\":\"7\",\"largest_log_number\":\"7\",\
         \"largest_degree\":1,\"buckets\":{buckets}}}\n"
    );
    assert_eq!(json(&sample("example.edges")), expected);
}

/// The help shows the example.
#[test]
fn the_help_has_the_example() {
    let help = run_on(&["summary", "--help"], &[]).fine();
    let help = String::from_utf8(help).unwrap();
    let example = told(&sample("example.edges"));
    let shown: String = example.lines().map(|line| format!("  {line}\n")).collect();
    assert!(help.contains(&shown), "{help}");
}

/// The object in the words of the corpus.
fn line(object: &Json) -> String {
    let number = |name| object.at(name).number();
    let [keys, edges, tombstones] = ["keys", "edges", "tombstones"].map(number);
    let degree = number("largest_degree");
    let extremes = match object.at("smallest_key") {
        Json::Null => "without edges".to_string(),
        _ => {
            let [from, to, first, last] = EXTREMES.map(|name| object.at(name).text());
            format!("from {from} to {to} logs {first} to {last}")
        }
    };
    let mut line = format!(
        "keys {keys} edges {edges} tombstones {tombstones} degree {degree} {extremes} buckets"
    );
    let buckets = object.at("buckets").array();
    assert_eq!(buckets.len(), 64);
    for (i, count) in buckets.iter().map(Json::number).enumerate() {
        if count > 0 {
            line += &format!(" {i}:{count}");
        }
    }
    line
}

/// A refusal in the words of the corpus.
fn refused(object: &Json) -> String {
    let number = |name| object.at("refused").at(name).number();
    let [number, place, beside] = ["number", "place", "beside"].map(number);
    format!("refused {number} at {place} beside {beside}")
}

/// Of the files that are refused each fifth.
#[test]
fn the_corpus_is_told_as_by_the_second_program() {
    let lines = lines("test_check");
    let told = lines
        .iter()
        .filter_map(|line| line.split_once(": summary "));
    let expected: HashMap<&str, &str> = told.collect();
    let files = inputs("test_check");
    assert_eq!(files.len(), expected.len());
    let (mut fine, mut bad) = (0, 0);
    for (i, file) in files.iter().enumerate() {
        let expected = expected[file.name.as_str()];
        let passes = !expected.starts_with("refused ");
        if !passes && i % 5 > 0 {
            continue;
        }
        let ran = run_on(&["summary", "--json", "-"], &file.bytes);
        let object = Json::parse(ran.text().trim_end());
        let (status, told) = match passes {
            true => (0, line(&object)),
            false => (1, refused(&object)),
        };
        assert_eq!((ran.status, ran.err.as_str()), (status, ""));
        assert_eq!(told, expected, "{}", file.name);
        *(if passes { &mut fine } else { &mut bad }) += 1;
    }
    assert!(fine > 500 && bad > 400, "{fine} and {bad}");
}

#[test]
fn a_refusal_is_told_on_standard_error() {
    let folder = folder("summary_refused");
    let mut board = sample("board.edges");
    board[700] ^= 0x40;
    folder.put("bad.edges", &board);
    let ran = folder.run(&["summary", "bad.edges"]);
    ran.fails(
        1,
        "bad.edges: 22: a section's checksum, entry 3 (partners)\n",
    );
}
