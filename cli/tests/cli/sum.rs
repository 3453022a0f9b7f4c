//! `edge-sst sum`, held to the sums of the reference program `xxhsum` and of the
//! second program.

use crate::json::Json;
use crate::run::{folder, ran, run, run_on, second, top, Folder, PROGRAM};
use std::fs::File;
use std::process::Command;

/// The lengths and sums of `xxhsum -H3`.
fn vectors() -> Vec<(usize, String)> {
    let text = std::fs::read_to_string(top("second/vectors/xxhsum-h3.txt")).unwrap();
    let lines = text.lines().filter(|line| !line.starts_with('#'));
    let vector = |line: &str| {
        let (length, sum) = line.split_once(' ').unwrap();
        (length.parse().unwrap(), sum.to_string())
    };
    lines.map(vector).collect()
}

#[test]
fn sums_are_those_of_the_reference_program() {
    let folder = folder("sum");
    let vectors = vectors();
    assert!(vectors.len() > 200);
    let longest = vectors.iter().map(|vector| vector.0).max().unwrap();
    let family = second(&["family", &longest.to_string()], &[]);
    let mut arguments = vec!["sum".to_string()];
    let mut expected = String::new();
    for (length, sum) in &vectors {
        let path = folder.put(&length.to_string(), &family[..*length]);
        expected += &format!("{sum}  {path}\n");
        arguments.push(path);
    }
    assert_eq!(String::from_utf8(run(&arguments).fine()).unwrap(), expected);

    arguments.insert(1, "--json".to_string());
    let told = String::from_utf8(run(&arguments).fine()).unwrap();
    let told = Json::lines(&told);
    assert_eq!(told.len(), vectors.len());
    for (object, (length, sum)) in told.iter().zip(&vectors) {
        assert_eq!(object.names(), ["file", "ok", "xxh3"]);
        assert_eq!(object.at("file").text(), folder.file(&length.to_string()));
        assert_eq!(object.at("xxh3").text(), sum);
    }
}

#[test]
fn a_file_that_is_not_there_does_not_hide_the_others() {
    let folder = folder("sum_missing");
    folder.put("none", &[]);
    let ran = folder.run(&["sum", "missing", "none"]);
    assert_eq!(ran.status, 2);
    assert_eq!(ran.text(), "2d06800538d394c2  none\n");
    assert!(ran.err.starts_with("missing: No such file"), "{}", ran.err);
}

/// Lengths beside the ends of chunks of 65,536 bytes, from a file and from a pipe.
#[test]
fn files_of_several_chunks() {
    let folder = folder("sum_chunks");
    let family = second(&["family", "300000"], &[]);
    for length in [65_535, 65_537, 131_071, 131_072, 131_073, 300_000] {
        let bytes = &family[..length];
        let expected = String::from_utf8(second(&["sum"], bytes)).unwrap();
        let expected = expected.trim_end();
        folder.put("file", bytes);
        let line = |name: &str| format!("{expected}  {name}\n").into_bytes();
        assert_eq!(folder.run(&["sum", "file"]).fine(), line("file"));
        assert_eq!(run_on(&["sum", "-"], bytes).fine(), line("-"));
        assert_eq!(run_on(&["sum"], bytes).fine(), line("-"));
    }
}

/// Without a file it is standard input, of which nothing may come.
#[test]
fn no_file_is_standard_input() {
    assert_eq!(run(&["sum"]).fine(), b"2d06800538d394c2  -\n");
    let told = String::from_utf8(run(&["sum", "--json"]).fine()).unwrap();
    let line = "{\"file\":\"-\",\"ok\":true,\"xxh3\":\"2d06800538d394c2\"}\n";
    assert_eq!(told, line);
}

/// A file of so many zeros, which take no room.
fn zeros(folder: &Folder, name: &str, length: u64) {
    folder.put(name, &[]);
    let file = File::options().write(true).open(folder.file(name));
    file.unwrap().set_len(length).unwrap();
}

/// 2^30 bytes are lawful, and need not fit into memory: here 100 MB are all there is.
/// The sum is that of xxHash 0.8.1.
#[test]
fn a_file_larger_than_memory() {
    let folder = folder("sum_large");
    zeros(&folder, "large", 1 << 30);
    let mut shell = Command::new("sh");
    shell.args(["-c", "ulimit -v 100000 && exec \"$PROGRAM\" sum large"]);
    let shell = shell.env("PROGRAM", PROGRAM).current_dir(folder.path());
    assert_eq!(ran(shell, &[]).fine(), b"efd1151033ad2e9f  large\n");
}

/// A byte more is refused as by the other commands, and the others are summed.
#[test]
fn a_file_past_the_bound_is_refused() {
    let folder = folder("sum_refused");
    zeros(&folder, "large", (1 << 30) + 1);
    folder.put("none", &[]);
    let ran = folder.run(&["sum", "large", "none"]);
    assert_eq!((ran.status, ran.text()), (1, "2d06800538d394c2  none\n"));
    assert_eq!(ran.err, "large: 27: chunk past 2^30 bytes in all\n");

    let ran = folder.run(&["sum", "--json", "large"]);
    assert_eq!((ran.status, ran.err.as_str()), (1, ""));
    let told = Json::parse(ran.text().trim_end());
    assert_eq!(told.names(), ["file", "ok", "refused"]);
    let refused = told.at("refused");
    assert_eq!(refused.at("number").number(), 27);
    assert_eq!(refused.at("text").text(), "chunk past 2^30 bytes in all");
    assert_eq!(refused.at("place").number(), 0);
    assert_eq!(refused.at("where").text(), "");
}
