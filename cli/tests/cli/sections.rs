//! `edge-sst sections`.

use crate::corpora::{inputs, lines};
use crate::json::Json;
use crate::run::{run_on, sample};
use std::collections::HashMap;

/// The answer for each file of the corpus, and its rows.
fn expected() -> HashMap<String, (String, Vec<String>)> {
    let mut expected = HashMap::new();
    let mut last = String::new();
    for line in lines("test_list") {
        if let Some(row) = line.strip_prefix("  section ") {
            let listed: &mut (String, Vec<String>) = expected.get_mut(&last).unwrap();
            listed.1.push(row.to_string());
        } else if let Some((name, told)) = line.split_once(": ") {
            last = name.to_string();
            expected.insert(last.clone(), (told.to_string(), Vec::new()));
        }
    }
    expected
}

/// The header of each file of the corpus of opening, in the words of its lines; the
/// files that are listed are such files, and one that does not open.
fn headers() -> HashMap<String, String> {
    let mut headers = HashMap::new();
    let mut last = String::new();
    for line in lines("test_open") {
        if let Some(header) = line.strip_prefix("  header ") {
            headers.insert(last.clone(), header.to_string());
        } else if let Some((name, _)) = line.split_once(": ") {
            last = name.to_string();
        }
    }
    headers
}

fn header_line(header: &Json) -> String {
    let names = [
        "minor",
        "direction",
        "flags",
        "edge_type",
        "source",
        "destination",
    ];
    assert_eq!(header.names(), names);
    let direction = match header.at("direction").text() {
        "forward" => 0,
        "inverse" => 1,
        other => panic!("{other}"),
    };
    format!(
        "minor {} direction {direction} flags {} ids {} {} {}",
        header.at("minor").number(),
        header.at("flags").number(),
        header.at("edge_type").text(),
        header.at("source").text(),
        header.at("destination").text()
    )
}

/// The header. Kind, codec, offset, length, checksum and name: the corpus has the
/// name's place and length, and so its bytes.
#[test]
fn the_corpus_is_listed_as_by_the_second_program() {
    let expected = expected();
    let headers = headers();
    let files = inputs("test_list");
    assert!(files.len() > 100);
    for file in files {
        let (told, rows) = &expected[&file.name];
        let ran = run_on(&["sections", "--json", "-"], &file.bytes);
        let object = Json::parse(ran.text().trim_end());
        if let Some(refused) = told.strip_prefix("refused ") {
            let told = object.at("refused");
            let number = |name| told.at(name).number();
            let places = format!("{} beside {}", number("place"), number("beside"));
            assert_eq!(format!("{} at {places}", number("number")), refused);
            assert_eq!((ran.status, ran.err.as_str()), (1, ""));
            continue;
        }
        assert_eq!(object.names(), ["file", "ok", "header", "sections"]);
        assert_eq!(header_line(object.at("header")), headers[&file.name]);
        let sections = object.at("sections").array();
        assert_eq!(format!("{} sections", sections.len()), *told);
        assert_eq!(ran.status, 0);
        for (i, (section, row)) in sections.iter().zip(rows).enumerate() {
            assert_eq!(section.at("entry").number(), i as u64);
            same(section, row, &file.bytes);
        }
    }
}

fn same(section: &Json, row: &str, file: &[u8]) {
    let words: Vec<&str> = row.split(' ').collect();
    let [kind, codec, place, length, start, len, sum] = words[..] else {
        panic!("{row}");
    };
    let number = |name| section.at(name).number().to_string();
    assert_eq!(
        (number("kind"), number("codec")),
        (kind.into(), codec.into())
    );
    assert_eq!(
        (number("offset"), number("length")),
        (start.into(), len.into())
    );
    assert_eq!(section.at("checksum").text(), sum);
    let place: usize = place.parse().unwrap();
    let name = &file[place..place + length.parse::<usize>().unwrap()];
    let hex: String = name.iter().map(|byte| format!("{byte:02x}")).collect();
    assert_eq!(section.at("name_hex").text(), hex);
    match std::str::from_utf8(name) {
        Ok(name) => assert_eq!(section.at("name").text(), name),
        Err(_) => assert_eq!(section.at("name"), &Json::Null),
    }
}

/// The first lines are the header that the second program wrote.
#[test]
fn the_boards_header_in_text() {
    let expected = "\
minor        3
direction    forward
flags        7 properties tombstones dense
edge type    101112131415161718191a1b1c1d1e1f
source       202122232425262728292a2b2c2d2e2f
destination  303132333435363738393a3b3c3d3e3f

";
    let told = run_on(&["sections", "-"], &sample("board.edges")).fine();
    assert!(String::from_utf8(told).unwrap().starts_with(expected));
}

/// An inverse file of no other flag.
#[test]
fn an_inverse_header_in_text() {
    let mut example = sample("example.edges");
    example[12] = 8;
    let told = run_on(&["sections", "-"], &example).fine();
    let told = String::from_utf8(told).unwrap();
    let lines: Vec<&str> = told.lines().collect();
    assert_eq!(lines[0], "minor        0");
    assert_eq!(lines[1], "direction    inverse");
    assert_eq!(lines[2], "flags        8 inverse");
}

/// A start index has a name too, in text and in JSON.
#[test]
fn a_start_index_is_named() {
    let files = inputs("test_check");
    let file = files.iter().find(|file| file.name == "check-starts-five");
    let bytes = &file.expect("a file with a start index").bytes;
    let told = String::from_utf8(run_on(&["sections", "-"], bytes).fine()).unwrap();
    let last: Vec<&str> = told.lines().last().unwrap().split_whitespace().collect();
    assert_eq!(last[..5], ["5", "0x0200", "start", "index", "raw"]);
    let ran = run_on(&["sections", "--json", "-"], bytes);
    let told = Json::parse(ran.text().trim_end());
    let section = &told.at("sections").array()[5];
    assert_eq!(section.at("kind_name").text(), "start index");
    assert_eq!(section.at("length").number(), 48);
}

/// The kinds have the names of the format's rules; the rows are those of the board in
/// the second program's corpus of the full check. They stand after the header and an
/// empty line.
#[test]
fn the_board_in_text() {
    let expected = [
        "0 1 keys raw 64 192",
        "1 2 offsets raw 256 39",
        "2 0x0777 skipped raw 295 1 later",
        "3 3 partners raw 296 440",
        "4 4 log numbers raw 736 320",
        "5 5 tombstones raw 1056 5",
        "6 0x0100 property stream raw 1061 13 weight",
    ];
    let told = run_on(&["sections", "-"], &sample("board.edges")).fine();
    let told = String::from_utf8(told).unwrap();
    let lines: Vec<Vec<&str>> = told
        .lines()
        .skip(7)
        .map(|l| l.split_whitespace().collect())
        .collect();
    let heads = [
        "entry", "kind", "codec", "offset", "length", "checksum", "name",
    ];
    assert_eq!(lines[0], heads);
    assert_eq!(lines.len(), 8);
    let board = sample("board.edges");
    for (line, expected) in lines[1..].iter().zip(expected) {
        let sum = *line
            .iter()
            .find(|word| word.len() == 16)
            .expect("a checksum");
        let rest: Vec<&str> = line.iter().copied().filter(|word| *word != sum).collect();
        assert_eq!(rest.join(" "), expected);
        // The stored sum is that of the section's bytes; tests/cli/sum.rs holds
        // `sum` to the reference program.
        let numbers: Vec<usize> = rest.iter().filter_map(|word| word.parse().ok()).collect();
        let (start, length) = (numbers[numbers.len() - 2], numbers[numbers.len() - 1]);
        let bytes = &board[start..start + length];
        let told = run_on(&["sum", "-"], bytes).fine();
        assert_eq!(told, format!("{sum}  -\n").as_bytes());
    }
}

#[test]
fn a_file_that_does_not_open_is_refused() {
    let ran = run_on(&["sections", "-"], &[0; 100]);
    ran.fails(1, "standard input: 2: magic\n");
}

/// A name that is no text has no name in JSON, and its bytes in the text.
#[test]
fn names_that_are_no_text() {
    let mut board = sample("board.edges");
    let place = board
        .windows(6)
        .rposition(|bytes| bytes == b"weight")
        .unwrap();
    board[place..place + 6].copy_from_slice(b"\xff\x1b\"\\\na");
    mend(&mut board);
    let told = run_on(&["sections", "-"], &board).fine();
    let told = String::from_utf8(told).unwrap();
    assert!(told.ends_with("  \\xff\\u{1b}\"\\\\na\n"), "{told}");
    let told = run_on(&["sections", "--json", "-"], &board).fine();
    let told = Json::parse(std::str::from_utf8(&told).unwrap().trim_end());
    let last = &told.at("sections").array()[6];
    assert_eq!(last.at("name"), &Json::Null);
    assert_eq!(last.at("name_hex").text(), "ff1b225c0a61");
}

/// Mends the footer's checksum.
pub fn mend(file: &mut [u8]) {
    let length = file.len();
    let footer = u32::from_le_bytes(file[length - 12..length - 8].try_into().unwrap());
    let body = &file[length - footer as usize..length - 20];
    let told = run_on(&["sum", "-"], body).fine();
    let sum = std::str::from_utf8(&told[..16]).unwrap();
    let sum = u64::from_str_radix(sum, 16).unwrap().to_le_bytes();
    file[length - 20..length - 12].copy_from_slice(&sum);
}
