//! The commands. Each is a file of its own and a row of the table here.

mod check;
mod from_text;
mod lookup;
mod print;
mod read_out;
mod sections;
mod sum;
mod summary;
mod to_text;
mod write;

use crate::arguments::{Arguments, Choice, HELP, JSON};
use crate::failure::{Failure, Status};
use crate::output;
use crate::watch::Watch;
use std::ffi::OsString;
use std::io::Write;

pub struct Command {
    name: &'static str,
    /// The words after the name.
    usage: &'static str,
    /// What it does, on a line.
    summary: &'static str,
    /// All else that a user has to know.
    help: &'static str,
    choices: &'static [&'static Choice],
    run: fn(&Arguments, &Watch) -> Result<Status, Failure>,
}

const COMMANDS: [&Command; 10] = [
    &check::COMMAND,
    &print::COMMAND,
    &lookup::COMMAND,
    &sections::COMMAND,
    &summary::COMMAND,
    &write::COMMAND,
    &read_out::COMMAND,
    &to_text::COMMAND,
    &from_text::COMMAND,
    &sum::COMMAND,
];

const VERSION: &str = concat!("edge-sst ", env!("CARGO_PKG_VERSION"), "\n");

const ABOUT: &str = "\
'edge-sst COMMAND --help' says more of a command, 'edge-sst --version' the version.
An input '-' is standard input, and '-o -' is standard output. A file has at most
2^30 bytes and is read whole, but by 'sum', which reads it in chunks.
Exit status: 0 fine, 1 refused, 2 for a usage, input or output error. A refusal has
the numbers and texts of the library; entries, keys, offsets, groups and edges are
counted from 0.
";

/// Runs the command that the words name.
pub fn run(words: Vec<OsString>) -> Status {
    let mut words = words.into_iter();
    let first = words.next().unwrap_or_default();
    let rest = words.collect();
    let first = first.to_string_lossy();
    match &*first {
        "help" | "--help" | "-h" => ended("", help(rest)),
        "--version" | "-V" => ended("", tell(VERSION)),
        name => match find(name) {
            Some(command) => ended(command.name, command.start(rest)),
            None => ended("", Err(unknown(name))),
        },
    }
}

fn find(name: &str) -> Option<&'static Command> {
    COMMANDS.into_iter().find(|command| command.name == name)
}

fn unknown(name: &str) -> Failure {
    Failure::Usage(match name {
        "" => "no command is given".to_string(),
        _ => format!("unknown command '{name}'"),
    })
}

/// The status in the end; what went wrong is told on standard error.
fn ended(command: &str, done: Result<Status, Failure>) -> Status {
    let failure = match done {
        Ok(status) => return status,
        Err(failure) => failure,
    };
    let program = ["edge-sst", command].join(" ");
    let program = program.trim_end();
    match &failure {
        Failure::Closed => {}
        Failure::Usage(why) => complain(&format!("{program}: {why}\ntry '{program} --help'")),
        other => complain(&other.to_string()),
    }
    failure.status()
}

/// A line on standard error; where that is closed there is nobody to tell.
fn complain(line: &str) {
    let _ = writeln!(std::io::stderr(), "{line}");
}

fn tell(text: &str) -> Result<Status, Failure> {
    output::print(|out| out.write_all(text.as_bytes()))?;
    Ok(Status::Fine)
}

/// `edge-sst help`, or `edge-sst help COMMAND`.
fn help(words: Vec<OsString>) -> Result<Status, Failure> {
    let Some(word) = words.first() else {
        return tell(&overview());
    };
    let name = word.to_string_lossy();
    tell(&find(&name).ok_or_else(|| unknown(&name))?.page())
}

fn overview() -> String {
    let mut text = "edge-sst: edge SST files, over the proved library\n\n".to_string();
    text += "usage: edge-sst COMMAND ..\n\n";
    for command in COMMANDS {
        text += &format!("  {:<10} {}\n", command.name, command.summary);
    }
    text + "\n" + ABOUT
}

impl Command {
    fn page(&self) -> String {
        let usage = format!("usage: edge-sst {} {}", self.name, self.usage);
        format!("{usage}\n\n{}.\n\n{}", self.summary, self.help)
    }

    fn start(&self, words: Vec<OsString>) -> Result<Status, Failure> {
        let arguments = Arguments::parse(words, self.choices)?;
        if arguments.has(&HELP) {
            return tell(&self.page());
        }
        match (self.run)(&arguments, &Watch::new()) {
            Err(failure) if arguments.has(&JSON) => told(failure, true),
            done => done,
        }
    }
}

/// Tells a failure where the work goes on after it, or where it is read by a
/// program: as an object on standard output, otherwise on standard error.
fn told(failure: Failure, json: bool) -> Result<Status, Failure> {
    match failure.json().filter(|_| json) {
        Some(object) => output::print(|out| writeln!(out, "{object}"))?,
        None => match failure {
            Failure::Usage(_) | Failure::Closed => return Err(failure),
            _ => complain(&failure.to_string()),
        },
    }
    Ok(failure.status())
}
