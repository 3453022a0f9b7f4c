//! `edge-sst check`.

use crate::corpora::{inputs, refusals, Named, Told};
use crate::json::Json;
use crate::run::{folder, ran, run, run_on, sample, Folder, PROGRAM};
use std::process::Command;

/// Puts each file of a corpus into the folder, and gives their paths.
fn put_all(folder: &Folder, files: &[Named]) -> Vec<String> {
    let put = |file: &Named| folder.put(&file.name, &file.bytes);
    files.iter().map(put).collect()
}

#[test]
fn samples_are_fine() {
    let folder = folder("check_samples");
    folder.put("board.edges", &sample("board.edges"));
    folder.put("example.edges", &sample("example.edges"));
    let ran = folder.run(&["check", "board.edges", "example.edges"]);
    assert_eq!(ran.fine(), b"board.edges: ok\nexample.edges: ok\n");
}

/// Every file of the corpus is told as the second program tells it, and in order.
#[test]
fn the_corpus_is_told_as_by_the_second_program() {
    let folder = folder("test_check");
    let files = inputs("test_check");
    let expected = refusals("test_check", "check");
    assert!(files.len() > 2000 && expected.len() > 2000);
    let mut arguments = vec![
        "check".to_string(),
        "--json".into(),
        "-j".into(),
        "2".into(),
    ];
    arguments.extend(put_all(&folder, &files));
    let ran = run(&arguments);
    assert_eq!((ran.status, ran.err.as_str()), (1, ""));
    let told = Json::lines(ran.text());
    assert_eq!(told.len(), files.len());
    for (file, told) in files.iter().zip(&told) {
        assert_eq!(told.at("file").text(), folder.file(&file.name));
        let refused = expected.get(&file.name);
        assert_eq!(told.at("ok").truth(), refused.is_none(), "{}", file.name);
        if let Some(refused) = refused {
            told_as(told.at("refused"), refused, &file.name);
        } else {
            assert_eq!(told.names(), ["file", "ok"]);
        }
    }
}

/// The object has the numbers of the corpus, and its words have the places in them.
fn told_as(refused: &Json, expected: &Told, name: &str) {
    let names = ["number", "text", "place", "beside", "where"];
    assert_eq!(refused.names(), names);
    let number = |name: &str| refused.at(name).number();
    let told = Told {
        number: number("number"),
        place: number("place"),
        beside: number("beside"),
    };
    assert_eq!(told, *expected, "{name}");
    let words = refused.at("where").text();
    let placeless = [1, 2, 3, 4, 5, 6, 7, 8, 9, 12, 15, 23].contains(&told.number);
    assert_eq!(words.is_empty(), placeless, "{name}");
    let counted = words.split(' ').nth(1).unwrap_or("0");
    if told.of_group() {
        assert_eq!(counted, told.beside.to_string(), "{name}");
        let byte = format!("), byte {}", told.place);
        assert!(words.ends_with(&byte), "{name}: {words}");
    } else {
        assert_eq!(counted, told.place.to_string(), "{name}");
    }
}

/// However many are checked at once, the lines come in the order given.
#[test]
fn lines_come_in_the_order_given() {
    let folder = folder("check_order");
    let mut files: Vec<Named> = inputs("test_check").into_iter().take(120).collect();
    files.sort_by_key(|file| std::cmp::Reverse(file.bytes.len()));
    let paths = put_all(&folder, &files);
    let told = |options: &[&str]| {
        let mut arguments: Vec<&str> = vec!["check"];
        arguments.extend(options);
        arguments.extend(paths.iter().map(String::as_str));
        run(&arguments)
    };
    let one = told(&[]);
    let names: Vec<&str> = one
        .lines()
        .iter()
        .map(|l| l.split(": ").next().unwrap())
        .collect();
    assert_eq!(names, paths);
    for options in [
        &["-j", "1"][..],
        &["-j2"],
        &["--jobs", "7"],
        &["--jobs=500"],
    ] {
        assert_eq!(told(options), one, "{options:?}");
    }
}

/// The first file comes late, when the second one is long checked.
#[test]
fn a_late_file_keeps_its_place() {
    let folder = folder("check_late");
    folder.put("late", &sample("board.edges"));
    folder.put("early", &sample("example.edges"));
    let words = "(sleep 0.5; cat late) | \"$0\" check -j 2 - early";
    let mut shell = Command::new("sh");
    let shell = shell.args(["-c", words, PROGRAM]);
    let ran = ran(shell.current_dir(folder.path()), &[]);
    assert_eq!(ran.fine(), b"standard input: ok\nearly: ok\n");
}

#[test]
fn a_file_that_is_not_there_does_not_hide_the_others() {
    let folder = folder("check_missing");
    folder.put("good", &sample("board.edges"));
    folder.put("bad", &sample("board.edges")[..100]);
    let ran = folder.run(&["check", "bad", "missing", "good"]);
    assert_eq!(ran.status, 2);
    assert_eq!(ran.lines(), ["bad: 6: tail magic", "good: ok"]);
    assert!(ran.err.starts_with("missing: No such file"), "{}", ran.err);
    assert_eq!(ran.err.lines().count(), 1);

    let ran = folder.run(&["check", "--json", "bad", "missing", "good"]);
    assert_eq!((ran.status, ran.err.as_str()), (2, ""));
    let told = Json::lines(ran.text());
    assert_eq!(told[0].at("refused").at("number").number(), 6);
    assert_eq!(told[1].names(), ["file", "ok", "error"]);
    assert!(told[1].at("error").text().starts_with("No such file"));
    assert!(told[2].at("ok").truth());
}

#[test]
fn standard_input_is_checked() {
    let board = sample("board.edges");
    assert_eq!(
        run_on(&["check", "-"], &board).fine(),
        b"standard input: ok\n"
    );
    let ran = run_on(&["check", "-"], &board[..50]);
    assert_eq!(ran.status, 1);
    let line = "standard input: 1: file under 84 or over 2^30 bytes\n";
    assert_eq!((ran.text(), ran.err.as_str()), (line, ""));
    let told = run_on(&["check", "--json", "-"], &board).fine();
    assert_eq!(told, b"{\"file\":\"-\",\"ok\":true}\n");
}

/// Names with all sorts of characters come back from JSON as they were, and stand
/// on one line of the text.
#[test]
fn names_are_escaped() {
    let folder = folder("check_names");
    let name = "a\"b\\c\nd\te\u{1}ü€.edges";
    folder.put(name, &sample("example.edges"));
    let ran = folder.run(&["check", "--json", name]);
    let told = Json::lines(std::str::from_utf8(&ran.fine()).unwrap());
    assert_eq!(told[0].at("file").text(), name);
    let ran = folder.run(&["check", name]);
    assert_eq!(ran.fine(), "a\"b\\c\\nd\\te\\u{1}ü€.edges: ok\n".as_bytes());
}

/// A file of more than 2^30 bytes is refused for its length, whatever else is wrong
/// with it. This one has a hole, and takes no room.
#[test]
fn longer_files_are_refused() {
    let folder = folder("check_long");
    let file = std::fs::File::create(folder.path().join("long")).unwrap();
    if file.set_len(1 << 40).is_err() {
        return; // No holes on this system.
    }
    let ran = folder.run(&["check", "long"]);
    let line = "long: 1: file under 84 or over 2^30 bytes\n";
    assert_eq!((ran.status, ran.text()), (1, line));
}
