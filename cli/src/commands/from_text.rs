use super::Command;
use crate::arguments::{Arguments, OUTPUT};
use crate::batch_text::{read_edge, read_heading};
use crate::failure::{Failure, Status};
use crate::input::{self, Name};
use crate::output;
use crate::place::{refused, Source};
use crate::watch::Watch;
use edge_sst::Batch;
use std::io::BufRead;

pub const COMMAND: Command = Command {
    name: "from-text",
    usage: "TEXT -o BATCH",
    summary: "A batch from its text",
    help: "\
The text is what 'to-text' gives:

  batch forward TYPE SOURCE DESTINATION
  KEY PARTNER lsn NUMBER live

with 'inverse' for 'forward' and 'dead' for 'live'. Ids have 32 hexadecimal digits;
edges strictly rise by key, then partner. Empty lines and lines that begin with '#'
are passed over. A line of another form is an input error (status 2), edges out of
order are refused (status 1).

  -o FILE, --output FILE  where the batch goes. It appears whole or not at all: it is
                          written beside it, synced and renamed
",
    choices: &[&OUTPUT],
    run,
};

/// A batch that is being read, and the line of each of its edges.
#[derive(Default)]
struct Reading {
    bytes: Vec<u8>,
    lines: Vec<u64>,
}

fn run(arguments: &Arguments, watch: &Watch) -> Result<Status, Failure> {
    let name = arguments.file("text")?;
    let target = arguments.needed_output()?;
    let _working = watch.begin(&name);
    let read = read(&name)?;
    if let Err(refusal) = Batch::of(&read.bytes) {
        return Err(refused(&name, &Source::Text(&read.lines), refusal));
    }
    output::write(&target, |out| out.write_all(&read.bytes))?;
    Ok(Status::Fine)
}

fn read(name: &Name) -> Result<Reading, Failure> {
    let mut text = input::text(name)?;
    let mut reading = Reading::default();
    let mut line = Vec::new();
    for number in 1_u64.. {
        line.clear();
        let read = text.read_until(b'\n', &mut line);
        if read.map_err(|error| Failure::trouble(name, error))? == 0 {
            break;
        }
        let wrong = |why| Failure::trouble(name, format!("line {number}: {why}"));
        reading.line(number, &line).map_err(wrong)?;
    }
    match reading.bytes.is_empty() {
        true => Err(Failure::trouble(name, "there is no heading")),
        false => Ok(reading),
    }
}

impl Reading {
    fn line(&mut self, number: u64, line: &[u8]) -> Result<(), String> {
        let line = std::str::from_utf8(line).map_err(|_| "this is no text".to_string())?;
        let line = line.trim();
        if line.is_empty() || line.starts_with('#') {
            return Ok(());
        }
        if self.bytes.is_empty() {
            self.bytes.extend(read_heading(line)?.bytes());
            return Ok(());
        }
        self.bytes.extend(read_edge(line)?.bytes());
        self.lines.push(number);
        Ok(())
    }
}
