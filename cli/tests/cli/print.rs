//! `edge-sst print`.

use crate::corpora::{inputs, lines};
use crate::json::Json;
use crate::run::{run_on, sample, second, top};
use std::collections::HashMap;

/// The printed example of the format's rules.
const EXAMPLE: &str = "\
edge-sst forward minor 0 keys 1 edges 1 dead 0
00000000000000010000000000000002 00000000000000050000000000000001 lsn 7 live
ok
";

#[test]
fn the_example_is_printed() {
    let path = top("samples/example.edges");
    let ran = crate::run::run(&["print".as_ref(), path.as_os_str()]);
    assert_eq!(ran.fine(), EXAMPLE.as_bytes());
}

/// What is printed for each file of the corpus: a line `== NAME` stands before it.
fn printed() -> HashMap<String, String> {
    let mut printed: HashMap<String, String> = HashMap::new();
    let mut name = String::new();
    for line in lines("test_print") {
        match line.strip_prefix("== ") {
            Some(next) => name = next.to_string(),
            None => *printed.entry(name.clone()).or_default() += &format!("{line}\n"),
        }
    }
    printed
}

/// Where the proved program prints `refused N at P`, the refusal is told here on
/// standard error.
#[test]
fn the_corpus_is_printed_as_by_the_second_program() {
    let printed = printed();
    let files = inputs("test_print");
    assert!(files.len() >= 80);
    for file in files {
        let expected = &printed[&file.name];
        let ran = run_on(&["print", "-"], &file.bytes);
        match expected.strip_prefix("refused ") {
            None => assert_eq!(ran.fine(), expected.as_bytes(), "{}", file.name),
            Some(told) => {
                let number = told.split(' ').next().unwrap();
                let begin = format!("standard input: {number}: ");
                assert!(ran.err.starts_with(&begin), "{}: {}", file.name, ran.err);
                assert_eq!((ran.status, ran.text()), (1, ""));
            }
        }
    }
}

/// The objects say what the second program prints.
#[test]
fn json_says_the_same() {
    let board = sample("board.edges");
    for bytes in [&board, &sample("example.edges")] {
        let text = String::from_utf8(second(&["print"], bytes)).unwrap();
        let told = run_on(&["print", "--json", "-"], bytes).fine();
        let told = Json::lines(std::str::from_utf8(&told).unwrap());
        let lines: Vec<&str> = text.lines().collect();
        assert_eq!(told.len() + 1, lines.len());
        assert_eq!(heading(&told[0]), lines[0]);
        for (object, line) in told[1..].iter().zip(&lines[1..]) {
            assert_eq!(edge(object), *line);
        }
    }
}

fn heading(object: &Json) -> String {
    let names = ["file", "ok", "direction", "minor", "keys", "edges", "dead"];
    assert_eq!(object.names(), names);
    assert_eq!(
        (object.at("file").text(), object.at("ok").truth()),
        ("-", true)
    );
    let number = |name| object.at(name).number();
    format!(
        "edge-sst {} minor {} keys {} edges {} dead {}",
        object.at("direction").text(),
        number("minor"),
        number("keys"),
        number("edges"),
        number("dead"),
    )
}

fn edge(object: &Json) -> String {
    assert_eq!(object.names(), ["key", "partner", "lsn", "dead"]);
    let text = |name| object.at(name).text();
    let state = if object.at("dead").truth() {
        "dead"
    } else {
        "live"
    };
    format!(
        "{} {} lsn {} {state}",
        text("key"),
        text("partner"),
        text("lsn")
    )
}

#[test]
fn a_refusal_is_an_object_too() {
    let ran = run_on(&["print", "--json", "-"], b"no edge file");
    assert_eq!((ran.status, ran.err.as_str()), (1, ""));
    let told = Json::parse(ran.text().trim_end());
    assert!(!told.at("ok").truth());
    assert_eq!(told.at("refused").at("number").number(), 1);
}

/// The proved program prints files of at most 65,536 bytes; here longer ones are.
#[test]
fn long_files_are_printed() {
    let mut batch = vec![3, 1];
    batch.extend([0x77; 48]);
    let mut expected = "edge-sst inverse minor 1 keys 3000 edges 3000 dead 1000\n".to_string();
    for i in 0_u32..3000 {
        let id = |k: u32| [&[0; 12][..], &k.to_be_bytes()].concat();
        batch.push(if i % 3 == 0 { 2 } else { 1 });
        batch.extend([id(i), id(7 * i)].concat());
        batch.extend((u64::MAX - u64::from(i)).to_le_bytes());
        let state = if i % 3 == 0 { "dead" } else { "live" };
        let log = u64::MAX - u64::from(i);
        expected += &format!("{i:032x} {:032x} lsn {log} {state}\n", 7 * i);
    }
    let file = second(&["write"], &batch);
    assert!(file.len() > 65_536);
    let printed = run_on(&["print", "-"], &file).fine();
    assert_eq!(String::from_utf8(printed).unwrap(), expected + "ok\n");
}
