//! `edge-sst lookup`.

use crate::corpora::{lines, lookups, Call};
use crate::json::Json;
use crate::run::{folder, run_on, sample, second, Folder, Ran};
use std::collections::HashMap;

/// The board's lines of edges, as the second program prints them.
fn board() -> Vec<String> {
    let text = String::from_utf8(second(&["print"], &sample("board.edges"))).unwrap();
    let lines: Vec<String> = text.lines().map(str::to_string).collect();
    lines[1..lines.len() - 1].to_vec()
}

fn keys(lines: &[String]) -> Vec<&str> {
    let mut keys: Vec<&str> = lines.iter().map(|line| &line[..32]).collect();
    keys.dedup();
    keys
}

fn look(options: &[&str], keys: &[&str], file: &[u8]) -> Ran {
    run_on(&[&["lookup"], options, &["-"], keys].concat(), file)
}

#[test]
fn every_key_of_the_board_is_found() {
    let expected = board();
    let told = look(&[], &keys(&expected), &sample("board.edges")).fine();
    let told = String::from_utf8(told).unwrap();
    assert!(told.lines().eq(expected.iter().map(String::as_str)));
}

#[test]
fn keys_are_answered_in_the_order_given() {
    let lines = board();
    let of = |key: &str| -> String {
        let own = lines.iter().filter(|line| line.starts_with(key));
        own.map(|line| format!("{line}\n")).collect()
    };
    let keys = keys(&lines);
    let absent = "ffffffffffffffffffffffffffffffff";
    let asked = [keys[5], absent, &keys[1].to_uppercase(), keys[5]];
    let told = look(&[], &asked, &sample("board.edges")).fine();
    let expected = [
        of(keys[5]),
        format!("{absent} absent\n"),
        of(keys[1]),
        of(keys[5]),
    ];
    assert_eq!(String::from_utf8(told).unwrap(), expected.concat());
}

#[test]
fn partners_alone() {
    let lines = board();
    let told = look(&["-p"], &keys(&lines), &sample("board.edges")).fine();
    let told = String::from_utf8(told).unwrap();
    assert!(told.lines().eq(lines.iter().map(|line| &line[..65])));
    let told = look(
        &["--partners"],
        &["00000000000000000000000000000000"],
        &sample("board.edges"),
    );
    assert_eq!(told.fine(), b"00000000000000000000000000000000 absent\n");
}

/// The line of each call of the corpus, and the lines of its partners.
fn expected() -> HashMap<String, (String, Vec<String>)> {
    let mut expected = HashMap::new();
    let mut last = String::new();
    for line in lines("test_lookup") {
        match line.strip_prefix("  partner ") {
            None => {
                let (name, told) = line.split_once(": ").unwrap();
                last = name.to_string();
                expected.insert(last.clone(), (told.to_string(), Vec::new()));
            }
            Some(partner) => {
                let told: &mut (String, Vec<String>) = expected.get_mut(&last).unwrap();
                told.1.push(partner.to_string());
            }
        }
    }
    expected
}

/// Every call on a file alone says what the second program says; but the room that
/// a call was lent there is not asked for here, so refusal 20 is left out.
#[test]
fn the_corpus_is_answered_as_by_the_second_program() {
    let folder = folder("test_lookup");
    let (files, calls) = lookups();
    let expected = expected();
    let mut asked = 0;
    for (i, file) in files.iter().enumerate() {
        folder.put("file", file);
        for full in [true, false] {
            let calls = calls
                .iter()
                .filter(|call| call.file == i && call.full == full);
            let short = |call: &&Call| expected[&call.name].0.starts_with("refused 20 ");
            let calls: Vec<&Call> = calls.filter(|call| !short(call)).collect();
            for some in calls.chunks(100) {
                same(&folder, full, some, &expected);
                asked += some.len();
            }
        }
    }
    assert!(asked > 1000, "{asked} calls");
}

fn same(
    folder: &Folder,
    full: bool,
    calls: &[&Call],
    expected: &HashMap<String, (String, Vec<String>)>,
) {
    let hex = |key: &[u8]| key.iter().map(|b| format!("{b:02x}")).collect::<String>();
    let keys: Vec<String> = calls.iter().map(|call| hex(&call.key)).collect();
    let mut arguments = vec!["lookup", "--json", "file"];
    arguments.extend((!full).then_some("-p"));
    arguments.extend(keys.iter().map(String::as_str));
    let ran = folder.run(&arguments);
    assert_eq!(ran.err, "");
    let told = Json::lines(ran.text());
    let refused = calls
        .iter()
        .any(|call| expected[&call.name].0.starts_with("refused"));
    assert_eq!(ran.status, i32::from(refused), "{}", calls[0].name);
    // A file that does not open is told once, not for each key.
    let whole = told.len() == 1 && told[0].names() == ["file", "ok", "refused"];
    for (i, call) in calls.iter().enumerate() {
        let told = if whole { &told[0] } else { &told[i] };
        if !whole {
            assert_eq!(told.at("key").text(), keys[i]);
            told_of_its_group(told, &keys[i]);
        }
        let (line, partners) = &expected[&call.name];
        // The corpus counts the compared keys of an absent one too.
        let line = match line.starts_with("absent ") {
            true => "absent",
            false => line.split(" sums ").next().unwrap(),
        };
        assert_eq!(words(told), line, "{}", call.name);
        for (edge, line) in edges(told).iter().zip(partners) {
            assert_eq!(edge, line, "{}", call.name);
        }
    }
}

/// A lookup that is refused is refused for the group of the key asked for: 19 at the
/// group, 16 and 28 to 35 at a byte of it.
fn told_of_its_group(told: &Json, key: &str) {
    if told.at("ok").truth() {
        return;
    }
    let refused = told.at("refused");
    let (place, beside) = (refused.at("place").number(), refused.at("beside").number());
    let words = match refused.at("number").number() {
        19 => format!("group {place} (key {key})"),
        16 | 28..=35 => format!("group {beside} (key {key}), byte {place}"),
        number => panic!("{number} of a lookup"),
    };
    assert_eq!(refused.at("where").text(), words);
}

/// An object in the words of the corpus.
fn words(told: &Json) -> String {
    let number = |json: &Json, name| json.at(name).number();
    if !told.at("ok").truth() {
        let refused = told.at("refused");
        return format!(
            "refused {} at {} beside {}",
            number(refused, "number"),
            number(refused, "place"),
            number(refused, "beside")
        );
    }
    if !told.at("found").truth() {
        return "absent".to_string();
    }
    let degree = told.at("edges").array().len();
    let (index, compared) = (number(told, "index"), number(told, "compared"));
    format!("found {degree} at {index} compared {compared}")
}

fn edges(told: &Json) -> Vec<String> {
    if !told.names().contains(&"edges") {
        return Vec::new();
    }
    let edge = |edge: &Json| {
        let partner = edge.at("partner").text();
        match edge.names()[..] {
            ["partner"] => partner.to_string(),
            _ => {
                let dead = u8::from(edge.at("dead").truth());
                format!("{partner} log {} mark {dead}", edge.at("lsn").text())
            }
        }
    };
    told.at("edges").array().iter().map(edge).collect()
}

/// A bad group is told with its key, and does not hide the other keys.
#[test]
fn a_bad_group_does_not_hide_the_others() {
    let lines = board();
    let keys = keys(&lines);
    let mut file = sample("board.edges");
    // The partners begin at 296; their first group is 1 edge, so its tag is byte 297.
    assert!([0x01, 0x10].contains(&file[297]));
    file[297] = 0x55;
    let ran = look(&[], &[keys[0], keys[2]], &file);
    let said = format!(
        "standard input: 16: unknown tag, group 0 (key {}), byte 1\n",
        keys[0]
    );
    assert_eq!((ran.status, ran.err), (1, said));
    let others = lines.iter().filter(|line| line.starts_with(keys[2]));
    let others: String = others.map(|line| format!("{line}\n")).collect();
    assert_eq!(std::str::from_utf8(&ran.out).unwrap(), others);
}

#[test]
fn words_that_are_no_keys() {
    let board = sample("board.edges");
    let long = "0".repeat(33);
    let plus = format!("+{}", "0".repeat(31));
    for word in ["", "1234", &long, &plus, &"g".repeat(32)] {
        let ran = look(&[], &["00000000000000000000000000000000", word], &board);
        let said = format!(
            "edge-sst lookup: '{word}' is no key: 32 hexadecimal digits\n\
             try 'edge-sst lookup --help'\n"
        );
        ran.fails(2, &said);
    }
}
