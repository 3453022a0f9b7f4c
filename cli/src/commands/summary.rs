use super::Command;
use crate::arguments::{Arguments, JSON};
use crate::failure::{Failure, Status};
use crate::id::Hex;
use crate::input::{self, Name};
use crate::json::Object;
use crate::output;
use crate::place::{refused, Source};
use crate::watch::Watch;
use edge_sst::{Extremes, Summary};
use std::io::{self, Write};

pub const COMMAND: Command = Command {
    name: "summary",
    usage: "[--json] FILE",
    summary: "Counts and degrees of a file that passes the full check",
    help: "\
Keys, edges and tombstones, the smallest and largest key and log number, the largest
degree, and how many keys have a degree from a power of two up to, but not including,
the next; powers without keys are left out:

  keys                 1
  edges                1
  tombstones           0
  smallest key         00000000000000010000000000000002
  largest key          00000000000000010000000000000002
  smallest log number  7
  largest log number   7
  largest degree       1
  degree 1: 1 key

A degree is the count of a key's edges. Dead edges, of which there are as many as
tombstones, count as others do. A file without edges has 'none' for smallest and
largest, and the largest degree 0.

  --json  one object; \"buckets\" has 64 numbers, of which number i, from 0, counts the
          keys of degree 2^i up to, but not including, 2^(i+1). Without edges smallest
          and largest are null. Log numbers are strings, since they go up to 2^64 - 1,
          where many readers of JSON round
",
    choices: &[&JSON],
    run,
};

fn run(arguments: &Arguments, watch: &Watch) -> Result<Status, Failure> {
    let file = arguments.file("file")?;
    let working = watch.begin(&file);
    let bytes = input::edge_file(&file)?;
    let summary = edge_sst::summary(&bytes)
        .map_err(|refusal| refused(&file, &Source::File(&bytes), refusal))?;
    drop(working);
    output::print(|out| match arguments.has(&JSON) {
        true => writeln!(out, "{}", object(&file, &summary)),
        false => print(out, &summary),
    })?;
    Ok(Status::Fine)
}

/// Smallest and largest in words; `None` where there are no edges.
fn extremes(summary: &Summary) -> [(&'static str, Option<String>); 4] {
    let of = |words: fn(&Extremes) -> String| summary.extremes.as_ref().map(words);
    [
        ("smallest key", of(|e| Hex(&e.smallest_key).to_string())),
        ("largest key", of(|e| Hex(&e.largest_key).to_string())),
        ("smallest log number", of(|e| e.smallest_log.to_string())),
        ("largest log number", of(|e| e.largest_log.to_string())),
    ]
}

fn print(out: &mut dyn Write, summary: &Summary) -> io::Result<()> {
    print_field(out, "keys", &summary.key_count.to_string())?;
    print_field(out, "edges", &summary.edge_count.to_string())?;
    print_field(out, "tombstones", &summary.tombstones.to_string())?;
    for (name, value) in extremes(summary) {
        print_field(out, name, value.as_deref().unwrap_or("none"))?;
    }
    print_field(out, "largest degree", &summary.largest_degree.to_string())?;
    let buckets = summary.buckets.iter().enumerate();
    for (bucket, keys) in buckets.filter(|(_, keys)| **keys > 0) {
        let word = if *keys == 1 { "key" } else { "keys" };
        writeln!(out, "{}: {keys} {word}", degrees(bucket))?;
    }
    Ok(())
}

fn print_field(out: &mut dyn Write, name: &str, value: &str) -> io::Result<()> {
    writeln!(out, "{name:<19}  {value}")
}

/// The degrees of a bucket, the first and the last.
fn degrees(bucket: usize) -> String {
    let first = 1_u64 << bucket;
    match first {
        1 => "degree 1".to_string(),
        _ => format!("degrees {first} to {}", first + (first - 1)),
    }
}

fn object(file: &Name, summary: &Summary) -> Object {
    let counts = Object::new()
        .string("file", &file.word())
        .truth("ok", true)
        .number("keys", summary.key_count)
        .number("edges", summary.edge_count)
        .number("tombstones", summary.tombstones);
    extremes(summary)
        .into_iter()
        .fold(counts, |object, (name, value)| {
            object.string_or_null(&name.replace(' ', "_"), value.as_deref())
        })
        .number("largest_degree", summary.largest_degree)
        .numbers("buckets", &summary.buckets)
}
