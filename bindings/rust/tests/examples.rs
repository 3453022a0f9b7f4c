//! The examples, run on the samples. `cargo test` builds them beside the tests.

use std::path::{Path, PathBuf};
use std::process::Command;

const SAMPLES: &str = concat!(env!("CARGO_MANIFEST_DIR"), "/../../samples");

/// The program of an example: this test is `.../deps/examples-*`, it is `.../examples/NAME`.
fn program(name: &str) -> PathBuf {
    let test = std::env::current_exe().expect("the path of this test");
    let folder = test.parent().and_then(Path::parent).expect("a folder");
    folder.join("examples").join(name)
}

/// What the example prints, and its status.
fn run(name: &str, words: &[&str]) -> (String, Option<i32>) {
    let done = Command::new(program(name))
        .args(words)
        .current_dir(SAMPLES)
        .output()
        .expect("an example that cargo built");
    let printed = String::from_utf8(done.stdout).expect("text");
    (printed, done.status.code())
}

#[test]
fn show_prints_keys_and_edges() {
    let key = "00000000000000010000000000000002";
    assert_eq!(
        run("show", &["example.edges"]),
        (format!("{key} 1\n"), Some(0))
    );
    let edge = "00000000000000050000000000000001 lsn 7 live\n";
    assert_eq!(
        run("show", &["example.edges", key]),
        (edge.to_string(), Some(0))
    );
}

#[test]
fn check_tells_each_file() {
    let fine = "example.edges: fine\nboard.edges: fine\n".to_string();
    assert_eq!(
        run("check", &["example.edges", "board.edges"]),
        (fine, Some(0))
    );
    let (told, status) = run("check", &["../README.md", "board.edges"]);
    assert_eq!(
        told,
        "../README.md: refused 2 at 0: magic\nboard.edges: fine\n"
    );
    assert_eq!(status, Some(1));
    assert_eq!(run("check", &[]), (String::new(), Some(2)));
}

/// A byte of the partners is another in the second file.
#[test]
fn sum_tells_each_section() {
    let told = |third: &str| {
        let rest = "entry 5: 5 bytes, fine\nentry 6: 13 bytes, fine\n";
        format!(
            "entry 1: 39 bytes, fine\nentry 0: 192 bytes, fine\nentry 2: 1 bytes, fine\n\
             entry 4: 320 bytes, fine\nentry 3: 440 bytes, {third}\n{rest}"
        )
    };
    assert_eq!(run("sum", &["board.edges"]), (told("fine"), Some(0)));

    let mut file = std::fs::read(format!("{SAMPLES}/board.edges")).expect("a sample");
    file[300] = 0xff;
    let path = std::env::temp_dir().join(format!("edge-sst-{}-bad.edges", std::process::id()));
    std::fs::write(&path, file).expect("written");
    let ran = run("sum", &[path.to_str().expect("a path of text")]);
    std::fs::remove_file(&path).expect("removed");
    let other = "6f86b3c9a26678e9 where the table says b75aa235999b3e4f";
    assert_eq!(ran, (told(other), Some(1)));

    assert_eq!(run("sum", &["../README.md"]), (String::new(), Some(1)));
    assert_eq!(run("sum", &[]), (String::new(), Some(2)));
}

#[test]
fn write_makes_the_sample() {
    let path = std::env::temp_dir().join(format!("edge-sst-{}.edges", std::process::id()));
    let out = path.to_str().expect("a path of text");
    assert_eq!(run("write", &[out]), ("256 bytes\n".to_string(), Some(0)));
    let made = std::fs::read(&path).expect("the file");
    let sample = std::fs::read(format!("{SAMPLES}/example.edges")).expect("a sample");
    std::fs::remove_file(&path).expect("removed");
    assert!(made == sample);
}
