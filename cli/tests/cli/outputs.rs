//! Outputs appear whole or not at all.

use crate::run::{folder, ran, run_on, sample, second, Folder, PROGRAM};
use std::fs;
use std::process::{Command, Stdio};

fn board_batch() -> Vec<u8> {
    second(&["read-out"], &sample("board.edges"))
}

/// A batch of 20,000 edges, each of a key of its own.
fn long_batch() -> Vec<u8> {
    let mut batch = board_batch();
    batch.truncate(50);
    for i in 0_u32..20_000 {
        batch.push(1);
        batch.extend([&[0; 12][..], &i.to_be_bytes()].concat());
        batch.extend([7; 24]);
    }
    batch
}

/// A folder with a good batch, a bad one, a bad file and bad text.
fn with_inputs(test: &str) -> Folder {
    let folder = folder(test);
    let batch = board_batch();
    folder.put("batch", &batch);
    folder.put("bad-batch", &batch[..100]);
    folder.put("bad-file", &sample("board.edges")[..200]);
    folder.put("bad-text", b"batch of nothing\n");
    folder
}

const INPUTS: [&str; 4] = ["bad-batch", "bad-file", "bad-text", "batch"];

#[test]
fn a_refused_input_leaves_nothing_behind() {
    let folder = with_inputs("outputs_refused");
    let runs = [
        (["write", "bad-batch"], 1),
        (["read-out", "bad-file"], 1),
        (["to-text", "bad-batch"], 1),
        (["from-text", "bad-text"], 2),
        (["write", "missing"], 2),
        (["read-out", "missing"], 2),
        (["from-text", "missing"], 2),
    ];
    for ([command, input], status) in runs {
        let ran = folder.run(&[command, input, "-o", "out"]);
        assert_eq!((ran.status, ran.text()), (status, ""), "{command} {input}");
        assert!(ran.err.starts_with(input), "{}", ran.err);
        assert_eq!(folder.names(), INPUTS);
    }
}

#[test]
fn a_refused_input_leaves_the_old_output() {
    let folder = with_inputs("outputs_kept");
    folder.put("out", b"old");
    for (command, input) in [("write", "bad-batch"), ("read-out", "bad-file")] {
        assert_eq!(folder.run(&[command, input, "-o", "out"]).status, 1);
        assert_eq!(folder.get("out"), b"old");
    }
    folder.run(&["write", "batch", "-o", "out"]).fine();
    assert_eq!(folder.get("out"), second(&["write"], &board_batch()));
    assert_eq!(folder.names().len(), INPUTS.len() + 1);
}

/// A write that fails in the midst, here by the shell's limit on the size of files,
/// leaves nothing behind and the old output as it was.
#[test]
fn a_failed_write_leaves_nothing_behind() {
    let folder = with_inputs("outputs_full");
    folder.put("batch", &long_batch());
    for old in [None, Some(b"old")] {
        if let Some(old) = old {
            folder.put("out", old);
        }
        let before = folder.names();
        let script = "trap '' XFSZ; ulimit -f 64; exec \"$0\" write batch -o out";
        let mut shell = Command::new("sh");
        let ran = ran(
            shell
                .args(["-c", script, PROGRAM])
                .current_dir(folder.path()),
            &[],
        );
        assert_eq!((ran.status, ran.text()), (2, ""));
        assert!(ran.err.starts_with("out: File too large"), "{}", ran.err);
        assert_eq!(folder.names(), before);
        assert!(old.is_none_or(|old| folder.get("out") == old));
    }
}

#[test]
fn outputs_that_cannot_be() {
    let folder = with_inputs("outputs_cannot");
    let ran = folder.run(&["write", "batch", "-o", "none/out"]);
    assert!(ran.err.starts_with("none/out: No such file"), "{}", ran.err);
    assert_eq!((ran.status, ran.text()), (2, ""));
    fs::create_dir(folder.path().join("folder")).unwrap();
    folder
        .run(&["write", "batch", "-o", "folder"])
        .fails(2, "folder: is a directory\n");
    let full = folder.run(&["write", "batch", "-o", "/dev/full"]);
    assert!(
        full.err.starts_with("/dev/full: No space left"),
        "{}",
        full.err
    );
    assert_eq!(full.status, 2);
}

#[test]
fn an_output_that_is_read_only_stays() {
    let folder = with_inputs("outputs_read_only");
    let path = folder.put("out", b"released");
    let mut permissions = fs::metadata(&path).unwrap().permissions();
    permissions.set_readonly(true);
    fs::set_permissions(&path, permissions).unwrap();
    folder
        .run(&["write", "batch", "-o", "out"])
        .fails(2, "out: is read-only\n");
    assert_eq!(folder.get("out"), b"released");
}

/// A link stays a link: the file that it leads to is replaced.
#[cfg(unix)]
#[test]
fn a_link_is_followed() {
    let folder = with_inputs("outputs_link");
    fs::create_dir(folder.path().join("there")).unwrap();
    folder.put("there/real", b"old");
    std::os::unix::fs::symlink("there/real", folder.path().join("link")).unwrap();
    folder.run(&["write", "batch", "-o", "link"]).fine();
    assert!(fs::symlink_metadata(folder.file("link"))
        .unwrap()
        .is_symlink());
    assert_eq!(folder.get("there/real"), second(&["write"], &board_batch()));
}

/// A file that is replaced keeps who may read it.
#[cfg(unix)]
#[test]
fn permissions_are_kept() {
    use std::os::unix::fs::PermissionsExt;
    let folder = with_inputs("outputs_permissions");
    let path = folder.put("out", b"old");
    fs::set_permissions(&path, fs::Permissions::from_mode(0o640)).unwrap();
    folder.run(&["write", "batch", "-o", "out"]).fine();
    assert_eq!(
        fs::metadata(&path).unwrap().permissions().mode() & 0o777,
        0o640
    );
}

/// A device is written to and not replaced.
#[cfg(unix)]
#[test]
fn a_device_stays_one() {
    let folder = with_inputs("outputs_device");
    folder.run(&["write", "batch", "-o", "/dev/null"]).fine();
    assert!(!fs::metadata("/dev/null").unwrap().is_file());
}

#[test]
fn dashes_in_and_out() {
    let batch = board_batch();
    let file = run_on(&["write", "-", "-o", "-"], &batch).fine();
    assert_eq!(file, second(&["write"], &batch));
    assert_eq!(run_on(&["read-out", "-o-", "-"], &file).fine(), batch);
}

/// Input and output may be one file: it is read before it is replaced.
#[test]
fn a_file_may_be_its_own_output() {
    let folder = with_inputs("outputs_same");
    folder.run(&["write", "batch", "-o", "batch"]).fine();
    assert_eq!(folder.get("batch"), second(&["write"], &board_batch()));
}

/// Where nobody reads on, the program ends without a word.
#[test]
fn a_closed_pipe_ends_it() {
    let folder = folder("outputs_closed");
    folder.put("batch", &long_batch());
    let mut program = Command::new(PROGRAM);
    program
        .args(["to-text", "batch"])
        .current_dir(folder.path());
    program.stdout(Stdio::piped()).stderr(Stdio::piped());
    let mut child = program.spawn().unwrap();
    drop(child.stdout.take());
    let ended = child.wait_with_output().unwrap();
    assert_eq!((ended.status.code(), ended.stderr), (Some(2), Vec::new()));
}
