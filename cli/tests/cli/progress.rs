//! The progress line, which is for terminals alone.

use crate::run::{folder, ran, sample, PROGRAM};
use std::process::Command;

/// An input that takes longer than a second.
const SLOW: &str = "(sleep 1.6; cat board.edges) | \"$PROGRAM\" check -";

/// Runs the shell's words; on a terminal if `script` makes one.
fn shell(test: &str, terminal: bool) -> Option<crate::run::Ran> {
    let folder = folder(test);
    folder.put("board.edges", &sample("board.edges"));
    let mut command = match terminal {
        true => Command::new("script"),
        false => Command::new("sh"),
    };
    match terminal {
        true => command.args(["-qec", SLOW, "/dev/null"]),
        false => command.args(["-c", SLOW]),
    };
    let known = !terminal || Command::new("script").arg("--version").output().is_ok();
    let command = command.env("PROGRAM", PROGRAM).current_dir(folder.path());
    known.then(|| ran(command, &[]))
}

/// After a second the file is named, and the line is gone when it is done.
#[test]
fn slow_files_are_named_on_a_terminal() {
    let Some(ran) = shell("progress_terminal", true) else {
        return; // No terminal can be made here.
    };
    let erase = "\r\u{1b}[K";
    let shown = format!("{erase}standard input: 1 s");
    let text = ran.text();
    assert!(text.starts_with(&shown), "{text:?}");
    assert!(
        text.ends_with(&format!("{erase}standard input: ok\r\n")),
        "{text:?}"
    );
    assert_eq!(ran.status, 0);
}

#[test]
fn there_is_no_line_elsewhere() {
    let ran = shell("progress_pipe", false).expect("a shell");
    assert_eq!(ran.fine(), b"standard input: ok\n");
}
