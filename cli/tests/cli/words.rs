//! Refusals in words: of damaged files by `check`, of batches by `write`.

use crate::corpora::{inputs, refusals, Named, Told};
use crate::json::Json;
use crate::run::{folder, run_on, sample, second};
use crate::sections::mend;

/// What `check` says of these bytes after the file's name.
#[track_caller]
fn said(bytes: &[u8]) -> String {
    let ran = run_on(&["check", "-"], bytes);
    assert_eq!((ran.status, ran.err.as_str()), (1, ""));
    let line = ran
        .text()
        .strip_prefix("standard input: ")
        .expect("the name");
    line.strip_suffix('\n').expect("one line").to_string()
}

/// The board with one byte changed.
fn changed(place: usize) -> Vec<u8> {
    let mut board = sample("board.edges");
    board[place] ^= 0x40;
    board
}

#[test]
fn a_wrong_header_is_told() {
    assert_eq!(said(&changed(0)), "2: magic");
    assert_eq!(said(&changed(8)), "3: major version not 1");
    assert_eq!(said(&changed(10)), "4: header size not 64");
    assert_eq!(said(&changed(12)), "5: a flag bit 4 to 31 is set");
}

#[test]
fn a_wrong_end_is_told() {
    let length = sample("board.edges").len();
    assert_eq!(said(&changed(length - 1)), "6: tail magic");
    assert_eq!(said(&changed(length - 9)), "7: footer length");
    assert_eq!(said(&changed(length - 20)), "8: footer checksum");
}

/// Entry 3 of the board is the partners, as the issue's own example has it.
#[test]
fn a_wrong_section_is_named() {
    let folder = folder("words_section");
    let mut board = sample("board.edges");
    board[700] ^= 0x40;
    folder.put("board.edges", &board);
    let ran = folder.run(&["check", "board.edges"]);
    let line = "board.edges: 22: a section's checksum, entry 3 (partners)\n";
    assert_eq!((ran.status, ran.text(), ran.err.as_str()), (1, line, ""));
}

/// The corpus damages each section of the board, and names the entry and kind.
#[test]
fn sections_are_named_by_kind_and_name() {
    let expected = [
        (0, "keys", "keys"),
        (1, "offsets", "offsets"),
        (2, "later", "kind 0x0777 'later'"),
        (3, "partners", "partners"),
        (4, "log numbers", "log numbers"),
        (5, "tombstones", "tombstones"),
        (6, "weight", "property stream 'weight'"),
    ];
    let files = inputs("test_check");
    for (entry, _, words) in expected {
        let begin = format!("check-sum-board-entry-{entry}-");
        let file = files.iter().find(|file| file.name.starts_with(&begin));
        let line = format!("22: a section's checksum, entry {entry} ({words})");
        assert_eq!(said(&file.expect("a damaged board").bytes), line);
    }
}

/// The start index under a wrong sum, as the first and the last entry.
#[test]
fn a_wrong_start_index_is_named() {
    let files = inputs("test_check");
    for entry in [0, 8] {
        let name = format!("check-starts-right-sum-at-{entry}");
        let file = files.iter().find(|file| file.name == name);
        let line = format!("22: a section's checksum, entry {entry} (start index)");
        assert_eq!(said(&file.expect("a wrong sum").bytes), line);
    }
}

/// The first file of the corpus that the second program refuses so, and its refusal.
fn refused_so(so: impl Fn(&Told, &[u8]) -> bool) -> (Vec<u8>, Told) {
    let refusals = refusals("test_check", "check");
    let fits = |file: &Named| {
        let told = refusals.get(&file.name)?;
        so(told, &file.bytes).then_some(*told)
    };
    let files = inputs("test_check").into_iter();
    let mut fitting = files.filter_map(|file| fits(&file).map(|told| (file.bytes, told)));
    fitting.next().expect("such a file")
}

/// A file that does not open has no list of its sections: the entry stands alone.
#[test]
fn places_of_files_that_do_not_open() {
    for (number, text) in [
        (10, "a section of kind 1 to 6 or 0x0200 is not raw, entry"),
        (11, "section range, entry"),
        (36, "a section of a reserved kind, entry"),
        (13, "key not above the one before, key"),
        (14, "offset, offset"),
        (37, "start index entry, start"),
    ] {
        for place in [1, 2, 3] {
            let (bytes, _) = refused_so(|told, _| (told.number, told.place) == (number, place));
            assert_eq!(said(&bytes), format!("{number}: {text} {place}"));
        }
    }
}

/// The board with a reserved kind at entry 2, which was skipped, and a sound footer.
fn reserved() -> Vec<u8> {
    let mut board = sample("board.edges");
    let later = board.windows(5).rposition(|bytes| bytes == b"later");
    let entry = later.expect("the name of entry 2") - 28;
    assert_eq!(board[entry..entry + 2], [0x77, 0x07]);
    board[entry..entry + 2].copy_from_slice(&[0x07, 0x00]);
    mend(&mut board);
    board
}

/// A file with a section of a reserved kind is refused by every command, and no output is
/// written.
#[test]
fn a_reserved_kind_is_told_by_every_command() {
    let folder = folder("words_reserved");
    folder.put("later.edges", &reserved());
    let line = "later.edges: 36: a section of a reserved kind, entry 2\n";
    let ran = folder.run(&["check", "later.edges"]);
    assert_eq!((ran.status, ran.text(), ran.err.as_str()), (1, line, ""));
    let key = "018f6e2a7c1070000000000000000020";
    for arguments in [
        &["print", "later.edges"][..],
        &["lookup", "later.edges", key],
        &["lookup", "-p", "later.edges", key],
        &["sections", "later.edges"],
        &["summary", "later.edges"],
        &["read-out", "later.edges", "-o", "later.batch"],
    ] {
        folder.run(arguments).fails(1, line);
    }
    assert_eq!(folder.names(), ["later.edges"]);
    let ran = folder.run(&["check", "--json", "later.edges"]);
    let told = Json::parse(ran.text().trim_end());
    let refused = told.at("refused");
    assert_eq!((ran.status, refused.at("number").number()), (1, 36));
    assert_eq!(refused.at("place").number(), 2);
    assert_eq!(refused.at("where").text(), "entry 2");
}

/// What is wrong with a group is told with its key, which is at 64 + 16 i where the keys
/// come first, and with the byte.
#[test]
fn faults_of_groups_are_told_with_key_and_byte() {
    for (number, text) in [
        (16, "unknown tag"),
        (28, "degree 0"),
        (29, "partner order"),
        (30, "upper half too large"),
        (31, "group cut short"),
        (32, "bytes left over"),
        (33, "varint cut"),
        (34, "varint not shortest"),
        (35, "varint too large"),
    ] {
        for group in [0, 1, 2] {
            let (bytes, told) = refused_so(|told, bytes| {
                (told.number, told.beside) == (number, group) && first_section(bytes) == (1, 64)
            });
            let key = &bytes[64 + 16 * group as usize..][..16];
            let key: String = key.iter().map(|byte| format!("{byte:02x}")).collect();
            let byte = told.place;
            let line = format!("{number}: {text}, group {group} (key {key}), byte {byte}");
            assert_eq!(said(&bytes), line);
        }
    }
}

/// Kind and offset of the first entry of the table.
fn first_section(bytes: &[u8]) -> (u64, u64) {
    let number = |at: usize, width: usize| {
        let digits = bytes[at..at + width].iter().rev();
        digits.fold(0, |sum, byte| 256 * sum + u64::from(*byte))
    };
    let body = bytes.len() - number(bytes.len() - 12, 4) as usize;
    (number(body + 2, 2), number(body + 6, 8))
}

#[test]
fn refusals_without_a_place_have_none() {
    assert_eq!(said(&[]), "1: file under 84 or over 2^30 bytes");
    for (number, text) in [
        (9, "section table"),
        (12, "counts, lengths or presence of sections"),
        (15, "fence section"),
        (
            23,
            "degree sum, flag bit 1 or 2, unused tombstone bits, or start index",
        ),
    ] {
        let (bytes, _) = refused_so(|told, _| told.number == number);
        assert_eq!(said(&bytes), format!("{number}: {text}"));
    }
}

#[test]
fn json_has_the_same_words() {
    let ran = run_on(&["check", "--json", "-"], &changed(700));
    assert_eq!((ran.status, ran.err.as_str()), (1, ""));
    let told = Json::parse(ran.text().trim_end());
    assert_eq!(told.names(), ["file", "ok", "refused"]);
    let refused = told.at("refused");
    assert_eq!(refused.at("number").number(), 22);
    assert_eq!(refused.at("place").number(), 3);
    assert_eq!(refused.at("beside").number(), 0);
    assert_eq!(refused.at("text").text(), "a section's checksum");
    assert_eq!(refused.at("where").text(), "entry 3 (partners)");
}

/// Places of a batch are bytes; an edge's number stands beside it.
#[test]
fn records_of_a_batch_are_named() {
    let batch = second(&["read-out"], &sample("board.edges"));
    let edge = |i: usize| 50 + 41 * i..91 + 41 * i;
    let said = |bytes: &[u8]| {
        let ran = run_on(&["write", "-", "-o", "-"], bytes);
        assert_eq!((ran.status, ran.text()), (1, ""));
        ran.err
    };
    let unknown = "standard input: 24: batch record unknown, cut or misplaced, ";
    assert_eq!(said(&[]), format!("{unknown}byte 0 (the heading)\n"));
    assert_eq!(
        said(&batch[1..]),
        format!("{unknown}byte 0 (the heading)\n")
    );
    assert_eq!(said(&batch[..100]), format!("{unknown}byte 91 (edge 1)\n"));
    let mut odd = batch.clone();
    odd[50 + 41 * 7] = 9;
    assert_eq!(said(&odd), format!("{unknown}byte 337 (edge 7)\n"));
    let again = [&batch[..edge(2).end], &batch[edge(2)]].concat();
    let line = "standard input: 25: batch order, byte 173 (edge 3)\n";
    assert_eq!(said(&again), line);
}
