//! `edge-sst write`, `read-out`, `to-text` and `from-text`.

use crate::corpora::{inputs, lines, refusals, Told};
use crate::run::{folder, run_on, sample, second};

const HEADING: &str = "batch forward 11111111111111111111111111111111 \
                       22222222222222222222222222222222 33333333333333333333333333333333";
const EDGE: &str = "00000000000000010000000000000002 00000000000000050000000000000001 lsn 7 live";

/// The text of a batch, by its records' bytes: a kind, a direction and three ids; a
/// kind, two ids and a little-endian number.
fn text_of(batch: &[u8]) -> String {
    let hex = |bytes: &[u8]| -> String { bytes.iter().map(|b| format!("{b:02x}")).collect() };
    let direction = ["forward", "inverse"][batch[1] as usize];
    let ids: Vec<String> = batch[2..50].chunks(16).map(hex).collect();
    let mut text = format!("batch {direction} {}\n", ids.join(" "));
    for edge in batch[50..].chunks(41) {
        let state = ["live", "dead"][edge[0] as usize - 1];
        let log = u64::from_le_bytes(edge[33..].try_into().unwrap());
        text += &format!(
            "{} {} lsn {log} {state}\n",
            hex(&edge[1..17]),
            hex(&edge[17..33])
        );
    }
    text
}

/// The format's printed example: its text gives its batch, and that its file.
#[test]
fn the_example_is_made_of_its_text() {
    let text = format!("{HEADING}\n{EDGE}\n");
    let batch = run_on(&["from-text", "-", "-o", "-"], text.as_bytes()).fine();
    assert_eq!(batch.len(), 91);
    let file = run_on(&["write", "-", "-o", "-"], &batch).fine();
    assert_eq!(file, sample("example.edges"));
    assert_eq!(run_on(&["to-text", "-"], &batch).fine(), text.as_bytes());
}

/// Every batch of the corpus is written as the second program writes it, and its
/// file read out again; and goes to text and back.
#[test]
fn the_corpus_is_written_as_by_the_second_program() {
    let refusals = refusals("test_write", "needed");
    let batches = inputs("test_write");
    let mut written = 0;
    for batch in batches {
        let wrote = run_on(&["write", "-", "-o", "-"], &batch.bytes);
        let shown = run_on(&["to-text", "-"], &batch.bytes);
        if let Some(Told { number, place, .. }) = refusals.get(&batch.name) {
            let begin = format!("standard input: {number}: ");
            assert!(
                wrote.err.starts_with(&begin),
                "{}: {}",
                batch.name,
                wrote.err
            );
            assert!(
                wrote.err.contains(&format!(", byte {place} (")),
                "{}",
                wrote.err
            );
            wrote.fails(1, &wrote.err);
            shown.fails(1, &wrote.err);
            continue;
        }
        written += 1;
        let file = wrote.fine();
        assert_eq!(file, second(&["write"], &batch.bytes), "{}", batch.name);
        let read = run_on(&["read-out", "-", "-o", "-"], &file).fine();
        assert_eq!(read, batch.bytes, "{}", batch.name);
        let text = shown.fine();
        assert_eq!(text, text_of(&batch.bytes).as_bytes(), "{}", batch.name);
        let again = run_on(&["from-text", "-", "-o", "-"], &text).fine();
        assert_eq!(again, batch.bytes, "{}", batch.name);
    }
    assert!(written > 250 && refusals.len() > 300);
}

/// Every file of the corpus that passes is read out as the second program does it,
/// which has the batch's length and sum; others are refused.
#[test]
fn the_corpus_is_read_out_as_by_the_second_program() {
    let refusals = refusals("test_check", "read-out");
    let answers = lines("test_check");
    let length = |name: &str| {
        let begin = format!("{name}: read-out ");
        let line = answers.iter().find_map(|line| line.strip_prefix(&begin));
        line.unwrap().split(' ').next().unwrap().parse::<usize>()
    };
    for (i, file) in inputs("test_check").iter().enumerate() {
        // Every sound file, and of the many damaged ones each fifth.
        match refusals.get(&file.name) {
            Some(_) if i % 5 != 0 => {}
            Some(Told { number, .. }) => {
                let ran = run_on(&["read-out", "-", "-o", "-"], &file.bytes);
                let begin = format!("standard input: {number}: ");
                assert!(ran.err.starts_with(&begin), "{}: {}", file.name, ran.err);
                assert_eq!((ran.status, ran.text()), (1, ""));
            }
            None => {
                let batch = run_on(&["read-out", "-", "-o", "-"], &file.bytes).fine();
                assert_eq!(Ok(batch.len()), length(&file.name));
                assert_eq!(batch, second(&["read-out"], &file.bytes), "{}", file.name);
            }
        }
    }
}

#[test]
fn files_go_through_all_four_commands() {
    let folder = folder("convert_files");
    folder.put("board.edges", &sample("board.edges"));
    folder
        .run(&["read-out", "board.edges", "-o", "batch"])
        .fine();
    assert_eq!(
        folder.get("batch"),
        second(&["read-out"], &sample("board.edges"))
    );
    folder.run(&["to-text", "batch", "--output", "text"]).fine();
    assert_eq!(folder.get("text"), text_of(&folder.get("batch")).as_bytes());
    folder
        .run(&["from-text", "--output=batch-again", "text"])
        .fine();
    assert_eq!(folder.get("batch-again"), folder.get("batch"));
    folder.run(&["write", "-ofile", "batch-again"]).fine();
    assert_eq!(folder.get("file"), second(&["write"], &folder.get("batch")));
    let all = ["batch", "batch-again", "board.edges", "file", "text"];
    assert_eq!(folder.names(), all);
}

/// Empty lines, comments, more spaces, capitals and other ends of lines are taken.
#[test]
fn texts_may_be_written_by_hand() {
    let by_hand = format!(
        "# one edge\r\n\r\n  {}\r\n\n# it\n\t{}  ",
        HEADING.replace(' ', "   "),
        EDGE.to_uppercase()
            .replace("LSN", "lsn")
            .replace("LIVE", "live"),
    );
    let batch = run_on(&["from-text", "-", "-o", "-"], by_hand.as_bytes()).fine();
    assert_eq!(text_of(&batch), format!("{HEADING}\n{EDGE}\n"));
}

/// Texts that are none, with HEADING and ID in the place of sound ones.
const WRONG: [(&str, &str); 10] = [
    ("", "there is no heading"),
    ("# nothing\n\n", "there is no heading"),
    (
        "ID ID lsn 7 live\n",
        "line 1: the heading is 'batch forward TYPE SOURCE DESTINATION', or 'batch inverse ..'",
    ),
    (
        "edge-sst forward minor 0 keys 0 edges 0 dead 0\nok\n",
        "line 1: this is what print gives, which has no ids: \
         a batch comes from read-out, its text from to-text",
    ),
    (
        "batch backward ID ID ID",
        "line 1: 'backward' is neither 'forward' nor 'inverse'",
    ),
    (
        "batch forward ID 2222 ID",
        "line 1: '2222' is no id: 32 hexadecimal digits",
    ),
    (
        "HEADING\n\nHEADING\n",
        "line 3: an edge is 'KEY PARTNER lsn NUMBER live', or '.. dead'",
    ),
    (
        "HEADING\nID ID lsn 18446744073709551616 live",
        "line 2: '18446744073709551616' is no log number: 0 to 2^64 - 1",
    ),
    (
        "HEADING\nID ID lsn +7 live",
        "line 2: '+7' is no log number: 0 to 2^64 - 1",
    ),
    (
        "HEADING\nID ID lsn 7 gone",
        "line 2: 'gone' is neither 'live' nor 'dead'",
    ),
];

#[test]
fn lines_of_another_form_are_input_errors() {
    let id = "00000000000000010000000000000002";
    for (text, why) in WRONG {
        let text = text.replace("HEADING", HEADING).replace("ID", id);
        let ran = run_on(&["from-text", "-", "-o", "-"], text.as_bytes());
        ran.fails(2, &format!("standard input: {why}\n"));
    }
    let ran = run_on(&["from-text", "-", "-o", "-"], b"\xff\n");
    ran.fails(2, "standard input: line 1: this is no text\n");
}

/// Edges out of order are refused, and told by their line.
#[test]
fn edges_out_of_order_are_refused_at_their_line() {
    let text = format!("{HEADING}\n# the same twice\n{EDGE}\n\n{EDGE}\n");
    let ran = run_on(&["from-text", "-", "-o", "-"], text.as_bytes());
    ran.fails(1, "standard input: 25: batch order, line 5 (edge 1)\n");
}

/// A heading alone makes 218 bytes, and the log number may be 2^64 - 1: marked cases
/// of the format's rules.
#[test]
fn the_least_batch_and_the_largest_log_number() {
    let batch = run_on(&["from-text", "-", "-o", "-"], HEADING.as_bytes()).fine();
    assert_eq!(batch.len(), 50);
    assert_eq!(run_on(&["write", "-", "-o", "-"], &batch).fine().len(), 218);
    let text = format!(
        "{HEADING}\n{}\n",
        EDGE.replace("lsn 7", "lsn 18446744073709551615")
    );
    let batch = run_on(&["from-text", "-", "-o", "-"], text.as_bytes()).fine();
    assert_eq!(batch[83..], [0xff; 8]);
    assert_eq!(run_on(&["to-text", "-"], &batch).fine(), text.as_bytes());
}
