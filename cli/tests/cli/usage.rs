//! The words of the command line: help, version, and what is not understood.

use crate::run::{folder, run, run_on, sample};

const COMMANDS: [&str; 10] = [
    "check",
    "print",
    "lookup",
    "sections",
    "summary",
    "write",
    "read-out",
    "to-text",
    "from-text",
    "sum",
];

#[test]
fn help_names_every_command() {
    let help = String::from_utf8(run(&["--help"]).fine()).unwrap();
    for command in COMMANDS {
        let row = format!("\n  {command} ");
        assert!(help.contains(&row), "{command}");
    }
    assert!(help.contains("Exit status: 0 fine, 1 refused, 2 "));
    assert_eq!(run(&["-h"]).fine(), help.as_bytes());
    assert_eq!(run(&["help"]).fine(), help.as_bytes());
}

#[test]
fn every_command_has_help() {
    for command in COMMANDS {
        let help = String::from_utf8(run(&[command, "--help"]).fine()).unwrap();
        let begin = format!("usage: edge-sst {command} ");
        assert!(help.starts_with(&begin), "{help}");
        assert!(help.lines().all(|line| line.len() < 90), "{help}");
        assert_eq!(run(&["help", command]).fine(), help.as_bytes());
        assert_eq!(
            run(&[command, "no-such-file", "-h"]).fine(),
            help.as_bytes()
        );
    }
}

#[test]
fn the_version_is_told() {
    let version = format!("edge-sst {}\n", env!("CARGO_PKG_VERSION"));
    assert_eq!(run(&["--version"]).fine(), version.as_bytes());
    assert_eq!(run(&["-V"]).fine(), version.as_bytes());
}

/// Words that a command does not take, and what is said of them.
const WRONG: [(&[&str], &str); 16] = [
    (&["check"], "no file is given"),
    (&["check", "--jsno", "x"], "unknown option --jsno"),
    (&["check", "-o", "y", "x"], "unknown option -o"),
    (
        &["check", "-j", "0", "x"],
        "-j takes a number from 1, not '0'",
    ),
    (
        &["check", "-jmany", "x"],
        "-j takes a number from 1, not 'many'",
    ),
    (&["check", "x", "-j"], "-j has no value"),
    (&["check", "-", "x", "-"], "'-' is given twice"),
    (&["print"], "no file is given"),
    (
        &["print", "x", "y"],
        "one file is taken, 'y' is one too many",
    ),
    (&["lookup"], "no file is given"),
    (&["lookup", "x"], "no key is given"),
    (&["write", "x"], "no output is given: -o FILE, or -o -"),
    (&["write", "-o", "y"], "no batch is given"),
    (
        &["write", "x", "-o", "y", "-o", "z"],
        "--output is given twice",
    ),
    (&["from-text", "x"], "no output is given: -o FILE, or -o -"),
    (&["sum", "-", "--json", "-"], "'-' is given twice"),
];

#[test]
fn words_that_are_not_understood() {
    let none: [&str; 0] = [];
    run(&none).fails(2, "edge-sst: no command is given\ntry 'edge-sst --help'\n");
    run(&["chekc"]).fails(
        2,
        "edge-sst: unknown command 'chekc'\ntry 'edge-sst --help'\n",
    );
    run(&["help", "x"]).fails(2, "edge-sst: unknown command 'x'\ntry 'edge-sst --help'\n");
    for (words, why) in WRONG {
        let command = words[0];
        let said = format!("edge-sst {command}: {why}\ntry 'edge-sst {command} --help'\n");
        run(words).fails(2, &said);
    }
}

/// After `--` every word is a file.
#[test]
fn files_with_dashes() {
    let folder = folder("usage_dashes");
    folder.put("--json", &sample("example.edges"));
    folder.put("-x", &sample("example.edges"));
    let ran = folder.run(&["check", "--", "--json", "-x"]);
    assert_eq!(ran.fine(), b"--json: ok\n-x: ok\n");
    let ran = run_on(&["check", "--", "-"], &sample("example.edges"));
    assert_eq!(ran.fine(), b"standard input: ok\n");
}

/// Each exit status, by a command that reads a file.
#[test]
fn statuses() {
    let folder = folder("usage_statuses");
    folder.put("good", &sample("example.edges"));
    folder.put("bad", b"bad");
    let key = "00000000000000010000000000000002";
    for (command, more) in [
        ("check", &[][..]),
        ("print", &[]),
        ("sections", &[]),
        ("summary", &[]),
        ("lookup", &[key]),
        ("read-out", &["-o", "out"]),
    ] {
        for (file, status) in [("good", 0), ("bad", 1), ("missing", 2), (".", 2)] {
            let ran = folder.run(&[&[command, file], more].concat());
            assert_eq!(ran.status, status, "{command} {file}: {}", ran.err);
        }
    }
}

/// A name that is no text is a file like any other.
#[cfg(target_os = "linux")]
#[test]
fn names_that_are_no_text() {
    use std::ffi::OsStr;
    use std::os::unix::ffi::OsStrExt;
    let folder = folder("usage_names");
    let path = folder.path().join(OsStr::from_bytes(b"\xff.edges"));
    std::fs::write(&path, sample("example.edges")).unwrap();
    let ran = run(&["check".as_ref(), path.as_os_str()]);
    assert!(ran.fine().ends_with("\u{fffd}.edges: ok\n".as_bytes()));
}
