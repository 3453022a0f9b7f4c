use super::{told, Command};
use crate::arguments::{Arguments, JSON};
use crate::failure::{Failure, Status};
use crate::input::{self, Name};
use crate::json::Object;
use crate::output;
use crate::place::{refused, Source};
use crate::watch::Watch;
use edge_sst::RunningSum;

pub const COMMAND: Command = Command {
    name: "sum",
    usage: "[--json] [FILE..]",
    summary: "XXH3-64 of files of any sort",
    help: "\
A line for each file, in the order given: 16 hexadecimal digits, two spaces and the
file. Seed 0 and the default secret, as the sections' checksums have them. Without a
FILE it is the sum of standard input.

A file is read in chunks and never held whole. One of more than 2^30 bytes is refused
with 27, and the others are summed.

  --json  an object for each file, with \"xxh3\"
",
    choices: &[&JSON],
    run,
};

fn run(arguments: &Arguments, watch: &Watch) -> Result<Status, Failure> {
    let json = arguments.has(&JSON);
    let mut worst = Status::Fine;
    for file in arguments.files_or_input()? {
        let status = match sum(&file, watch) {
            Ok(sum) => tell(&file, sum, json)?,
            Err(failure) => told(failure, json)?,
        };
        worst = worst.max(status);
    }
    Ok(worst)
}

fn sum(file: &Name, watch: &Watch) -> Result<u64, Failure> {
    let _working = watch.begin(file);
    let mut running = RunningSum::new();
    input::in_chunks(file, |chunk| {
        let taken = running.update(chunk);
        taken.map_err(|refusal| refused(file, &Source::Chunk, refusal))
    })?;
    Ok(running.sum())
}

fn tell(file: &Name, sum: u64, json: bool) -> Result<Status, Failure> {
    let sum = format!("{sum:016x}");
    output::print(|out| match json {
        true => writeln!(out, "{}", object(file, &sum)),
        false => writeln!(out, "{sum}  {}", file.on_a_line()),
    })?;
    Ok(Status::Fine)
}

fn object(file: &Name, sum: &str) -> Object {
    Object::new()
        .string("file", &file.word())
        .truth("ok", true)
        .string("xxh3", sum)
}
