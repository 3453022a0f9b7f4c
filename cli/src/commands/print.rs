use super::Command;
use crate::arguments::{Arguments, JSON};
use crate::batch_text::{direction, edge_of, print_edge};
use crate::failure::{Failure, Status};
use crate::id::Hex;
use crate::input::{self, Name};
use crate::json::Object;
use crate::output;
use crate::place::{refused, Source};
use crate::watch::Watch;
use edge_sst::{Batch, EdgeSst, Record, Refusal};
use std::io::{self, Write};

pub const COMMAND: Command = Command {
    name: "print",
    usage: "[--json] FILE",
    summary: "Prints the edges of a file that passes the full check",
    help: "\
A line of the file, a line for each edge in file order, and 'ok':

  edge-sst forward minor 0 keys 1 edges 1 dead 0
  00000000000000010000000000000002 00000000000000050000000000000001 lsn 7 live
  ok

An inverse file's second word is 'inverse', a dead edge's last word 'dead'. The same
lines as those of the proved program, for files of any length.

  --json  an object of the file, and one for each edge; log numbers are strings,
          since they go up to 2^64 - 1, where many readers of JSON round
",
    choices: &[&JSON],
    run,
};

/// What the first line says of a file.
struct Summary {
    direction: &'static str,
    minor: u8,
    keys: u64,
    edges: u64,
    dead: usize,
}

fn run(arguments: &Arguments, watch: &Watch) -> Result<Status, Failure> {
    let file = arguments.file("file")?;
    let working = watch.begin(&file);
    let bytes = input::edge_file(&file)?;
    let refuse = |refusal| refused(&file, &Source::File(&bytes), refusal);
    let batch = edge_sst::read_out(&bytes).map_err(refuse)?;
    let batch = Batch::of(&batch).map_err(refuse)?;
    let summary = summary(&bytes, &batch).map_err(refuse)?;
    drop(working);
    output::print(|out| match arguments.has(&JSON) {
        true => print_json(out, &file, &summary, &batch),
        false => print(out, &summary, &batch),
    })?;
    Ok(Status::Fine)
}

fn summary(file: &[u8], batch: &Batch) -> Result<Summary, Refusal> {
    let opened = EdgeSst::open(file)?;
    Ok(Summary {
        direction: direction(batch.heading().inverse),
        minor: opened.header()?.minor,
        keys: opened.key_count(),
        edges: opened.edge_count(),
        dead: batch.records().filter(|record| record.dead).count(),
    })
}

fn print(out: &mut dyn Write, summary: &Summary, batch: &Batch) -> io::Result<()> {
    let Summary {
        direction,
        minor,
        keys,
        edges,
        dead,
    } = summary;
    writeln!(
        out,
        "edge-sst {direction} minor {minor} keys {keys} edges {edges} dead {dead}"
    )?;
    for record in batch.records() {
        print_edge(out, &record.key, &edge_of(&record))?;
    }
    writeln!(out, "ok")
}

fn print_json(
    out: &mut dyn Write,
    file: &Name,
    summary: &Summary,
    batch: &Batch,
) -> io::Result<()> {
    let object = Object::new()
        .string("file", &file.word())
        .truth("ok", true)
        .string("direction", summary.direction)
        .number("minor", summary.minor.into())
        .number("keys", summary.keys)
        .number("edges", summary.edges)
        .number("dead", summary.dead as u64);
    writeln!(out, "{object}")?;
    for record in batch.records() {
        writeln!(out, "{}", edge(&record))?;
    }
    Ok(())
}

fn edge(record: &Record) -> Object {
    Object::new()
        .string("key", &Hex(&record.key).to_string())
        .string("partner", &Hex(&record.partner).to_string())
        .string("lsn", &record.log.to_string())
        .truth("dead", record.dead)
}
