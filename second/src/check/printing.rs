//! Checks of what is printed, and of the corpus of printing.

use super::groups::FAULTS;
use super::{opening, Tally};
use crate::batch::{Batch, KeyedEdge};
use crate::corpus::check_files::{self, samples, CheckFile, ROOM};
use crate::corpus::print_files;
use crate::groups::Edge;
use crate::numbers::Id;
use crate::print::{print, LONGEST};
use crate::refusal::Refusal;
use std::collections::BTreeMap;

/// The form that the rules give.
const EXAMPLE: &str = "\
edge-sst forward minor 0 keys 1 edges 1 dead 0
00000000000000010000000000000002 00000000000000050000000000000001 lsn 7 live
ok
";

pub fn check(tally: &mut Tally) {
    let example = samples::example().bytes();
    tally.same("size of the example", example.len(), 256);
    tally.same("the printed example", print(&example).as_str(), EXAMPLE);
    for size in [LONGEST + 1, LONGEST + 2, 1 << 20] {
        let long = [&example[..], &vec![0; size - 256]].concat();
        let what = format!("{size} bytes printed");
        tally.same(&what, print(&long).as_str(), "too long\n");
    }
    let zeros = print(&vec![0; LONGEST]);
    tally.same("zeros printed", zeros.as_str(), "refused 2 at 0\n");

    let files = print_files::files();
    check_chosen(tally, &files);
    for file in check_files::files() {
        check_printed(tally, &file);
    }
}

/// The files are few, small, and leave no refusal out.
fn check_chosen(tally: &mut Tally, files: &[CheckFile]) {
    let mut refused: BTreeMap<u8, usize> = BTreeMap::new();
    for file in files {
        match file.verdict() {
            Ok(()) => {
                let edges = print_files::edge_count(file);
                let few = edges.is_some_and(|edges| edges <= print_files::MOST_EDGES);
                tally.same(&format!("few edges in {}", file.name), few, true);
            }
            Err(refusal) => *refused.entry(refusal.number).or_default() += 1,
        }
    }
    let numbers = opening::NUMBERS.into_iter().chain([22, 23]).chain(FAULTS);
    let each = numbers.map(|number| (number, print_files::OF_EACH_REFUSAL));
    tally.same("refusals printed", &refused, &each.collect());
    tally.same("80 to 100 printed", (80..=100).contains(&files.len()), true);
    tally.notes.push(format!(
        "corpus of printing: {} files, {} bytes in, {} bytes out",
        files.len(),
        check_files::stdin(files).len(),
        print_files::stdout(files).len()
    ));
}

/// The printed edges, read again, are the batch that is read out; the counts
/// are theirs; and a refusal is that of the full check, without the group.
fn check_printed(tally: &mut Tally, file: &CheckFile) {
    let what = format!("{} printed", file.name);
    let text = print(&file.bytes);
    let (told, output) = file.read_out(ROOM);
    let size = match told {
        Ok(size) => size as usize,
        Err(Refusal { number, place, .. }) => {
            tally.same(&what, text, format!("refused {number} at {place}\n"));
            return;
        }
    };
    let mut lines: Vec<&str> = text.lines().collect();
    tally.same(&what, lines.pop(), Some("ok"));
    let head = lines.remove(0);
    let edges: Vec<KeyedEdge> = lines.into_iter().map(edge_of).collect();
    let keys = edges.chunk_by(|a, b| a.key == b.key).count();
    let dead = edges.iter().filter(|keyed| keyed.edge.dead).count();
    let inverse = output[1] == 1;
    let expected = format!(
        "edge-sst {} minor {} keys {keys} edges {} dead {dead}",
        ["forward", "inverse"][usize::from(inverse)],
        file.bytes[9],
        edges.len()
    );
    tally.same(&what, head, expected.as_str());
    let id = |at: usize| file.bytes[at..at + 16].try_into().expect("16 bytes");
    let batch = Batch {
        inverse,
        ids: [id(16), id(32), id(48)],
        edges,
    };
    tally.same(&what, batch.bytes() == output[..size], true);
}

/// The edge that a printed line tells.
fn edge_of(line: &str) -> KeyedEdge {
    let words: Vec<&str> = line.split(' ').collect();
    let [key, partner, "lsn", log, state] = words[..] else {
        panic!("a line of another form: {line}");
    };
    let id = |word: &str| -> Id {
        assert_eq!(word.len(), 32);
        let number = u128::from_str_radix(word, 16).expect("hexadecimal digits");
        number.to_be_bytes()
    };
    KeyedEdge {
        key: id(key),
        edge: Edge {
            partner: id(partner),
            log: log.parse().expect("a decimal number"),
            dead: state == "dead",
        },
    }
}
