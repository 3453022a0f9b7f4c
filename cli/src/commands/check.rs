use super::{told, Command};
use crate::arguments::{Arguments, JOBS, JSON};
use crate::failure::{Failure, Status};
use crate::input::{self, Name};
use crate::json::Object;
use crate::output;
use crate::place::{refused, Source};
use crate::side_by_side::in_order;
use crate::watch::Watch;

pub const COMMAND: Command = Command {
    name: "check",
    usage: "[-j N] [--json] FILE..",
    summary: "Checks files in full: frame, keys, offsets, fences, checksums and groups",
    help: "\
Says on a line for each file, in the order given, 'FILE: ok' or what is wrong:

  board.edges: 22: a section's checksum, entry 3 (partners)

A file that cannot be read is told on standard error, and the others are checked.

  -j N, --jobs N  checks N files at once; each is held in memory while it is checked
  --json          a line for each file: {\"file\":..,\"ok\":true}, or with \"ok\":false and
                  {\"refused\":{\"number\":..,\"text\":..,\"place\":..,\"beside\":..,
                  \"where\":..}} or \"error\"
",
    choices: &[&JOBS, &JSON],
    run,
};

type Outcome = Result<Name, Failure>;

fn run(arguments: &Arguments, watch: &Watch) -> Result<Status, Failure> {
    let files = arguments.files()?;
    let json = arguments.has(&JSON);
    let mut worst = Status::Fine;
    let work = |file: &Name| {
        let _working = watch.begin(file);
        check(file)
    };
    let tell = |outcome: Outcome| {
        worst = worst.max(watch.aside(|| tell(outcome, json))?);
        Ok(())
    };
    in_order(&files, arguments.jobs()?, work, tell)?;
    Ok(worst)
}

fn check(file: &Name) -> Outcome {
    let bytes = input::edge_file(file)?;
    match edge_sst::check(&bytes) {
        Ok(()) => Ok(file.clone()),
        Err(refusal) => Err(refused(file, &Source::File(&bytes), refusal)),
    }
}

/// A refusal is an answer here, so it stands on standard output.
fn tell(outcome: Outcome, json: bool) -> Result<Status, Failure> {
    let (line, status) = match outcome {
        Ok(file) if json => (answer(&file).to_string(), Status::Fine),
        Ok(file) => (format!("{file}: ok"), Status::Fine),
        Err(Failure::Refused(refused)) if !json => (refused.to_string(), Status::Refused),
        Err(failure) => return told(failure, json),
    };
    output::print(|out| writeln!(out, "{line}"))?;
    Ok(status)
}

fn answer(file: &Name) -> Object {
    Object::new().string("file", &file.word()).truth("ok", true)
}
