//! The second program: an independent opinion on checksums, number codes, the
//! opening of files, the lookup of keys, the full check, the summary, read-out
//! and writing.
//! See README.md.

mod batch;
mod check;
mod corpus;
mod family;
mod format;
mod full_check;
mod groups;
mod header;
mod layout;
mod list;
mod lookup;
mod numbers;
mod open;
mod print;
mod random;
mod read_out;
mod refusal;
mod running;
mod summary;
mod varint;
mod write;
mod xxh3;

use corpus::VectorFile;
use std::fs;
use std::io::{self, Read, Write};
use std::path::Path;
use std::process::ExitCode;

const USAGE: &str =
    "usage: second check | make DIR | make-large DIR | compare DIR | bytes NAME | family N
       second write | read-out | print | summary | sum, each with its input on standard input";

fn main() -> ExitCode {
    let arguments: Vec<String> = std::env::args().skip(1).collect();
    let words: Vec<&str> = arguments.iter().map(String::as_str).collect();
    let done = match words[..] {
        ["check"] => check(),
        ["make", dir] => make(Path::new(dir), corpus::files()),
        ["make-large", dir] => make(Path::new(dir), corpus::large_files()),
        ["compare", dir] => compare(Path::new(dir)),
        ["bytes", name] => bytes(name),
        ["family", count] => family(count),
        ["write"] => write(),
        ["read-out"] => read_out(),
        ["print"] => print(),
        ["summary"] => summary(),
        ["sum"] => sum(),
        _ => Err(USAGE.to_string()),
    };
    match done {
        Ok(()) => ExitCode::SUCCESS,
        Err(message) => {
            eprintln!("{message}");
            ExitCode::FAILURE
        }
    }
}

fn check() -> Result<(), String> {
    let tally = check::all();
    if !tally.failures.is_empty() {
        return Err(format!(
            "{}\nsecond: {} checks failed",
            tally.failures.join("\n"),
            tally.failures.len()
        ));
    }
    for note in &tally.notes {
        println!("{note}");
    }
    println!("second: {} checks passed", tally.passed);
    Ok(())
}

fn make(dir: &Path, files: Vec<VectorFile>) -> Result<(), String> {
    for file in files {
        let path = dir.join(file.path);
        let parent = path.parent().unwrap_or(dir);
        fs::create_dir_all(parent)
            .and_then(|()| fs::write(&path, &file.bytes))
            .map_err(|error| format!("{}: {error}", path.display()))?;
    }
    Ok(())
}

/// Names every file that differs, not only the first.
fn compare(dir: &Path) -> Result<(), String> {
    let mut differing = Vec::new();
    for file in corpus::files() {
        let path = dir.join(file.path);
        match fs::read(&path) {
            Ok(bytes) if bytes == file.bytes => {}
            Ok(_) => differing.push(format!("{}: differs", path.display())),
            Err(error) => differing.push(format!("{}: {error}", path.display())),
        }
    }
    if differing.is_empty() {
        Ok(())
    } else {
        Err(differing.join("\n"))
    }
}

/// One file or batch of the corpora, as it is.
fn bytes(name: &str) -> Result<(), String> {
    let opened = corpus::open_files::small()
        .into_iter()
        .chain(corpus::open_files::large())
        .map(|file| (file.name, file.bytes));
    let looked_up = corpus::lookup_calls::files()
        .into_iter()
        .map(|file| (file.name, file.bytes));
    let checked = corpus::check_files::files()
        .into_iter()
        .map(|file| (file.name, file.bytes));
    let written = corpus::write_batches::small()
        .into_iter()
        .chain(corpus::write_batches::large())
        .map(|batch| (batch.name, batch.bytes));
    let (_, bytes) = opened
        .chain(looked_up)
        .chain(checked)
        .chain(written)
        .find(|item| item.0 == name)
        .ok_or_else(|| format!("{name}: no such name in the corpora"))?;
    write_out(&bytes)
}

/// From a batch to its file.
fn write() -> Result<(), String> {
    let batch = standard_input()?;
    let size = write::needed(&batch).map_err(|refusal| refusal.to_string())?;
    let mut file = vec![0; size as usize];
    write::write(&batch, &mut file).map_err(|refusal| refusal.to_string())?;
    write_out(&file)
}

/// From a file to its batch. No edge has less than 17 bytes in a file, so three
/// times the file and a heading is room enough.
fn read_out() -> Result<(), String> {
    let file = standard_input()?;
    let mut batch = vec![0; 3 * file.len() + batch::HEADING];
    let size = read_out::read_out(&file, &mut batch).map_err(|refusal| refusal.to_string())?;
    write_out(&batch[..size as usize])
}

fn print() -> Result<(), String> {
    let file = standard_input()?;
    write_out(print::print(&file).as_bytes())
}

/// The summary of a file, as the corpus of the full check has it.
fn summary() -> Result<(), String> {
    let text = corpus::check_files::summary_text(&standard_input()?);
    write_out(format!("{text}\n").as_bytes())
}

/// The XXH3-64 of any bytes.
fn sum() -> Result<(), String> {
    let sum = xxh3::xxh3_64(&standard_input()?);
    write_out(format!("{sum:016x}\n").as_bytes())
}

fn family(count: &str) -> Result<(), String> {
    let count = count.parse().map_err(|_| USAGE.to_string())?;
    write_out(&family::bytes(count))
}

fn standard_input() -> Result<Vec<u8>, String> {
    let mut bytes = Vec::new();
    io::stdin()
        .read_to_end(&mut bytes)
        .map_err(|error| format!("standard input: {error}"))?;
    Ok(bytes)
}

fn write_out(bytes: &[u8]) -> Result<(), String> {
    io::stdout()
        .write_all(bytes)
        .map_err(|error| format!("standard output: {error}"))
}
