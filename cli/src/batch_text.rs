//! The text form of batches, and of edges wherever they are printed.
//!
//! A batch is a line `batch forward TYPE SOURCE DESTINATION`, or `inverse`, and a
//! line `KEY PARTNER lsn NUMBER live` for each edge, or `dead`. Ids have 32
//! hexadecimal digits.

use crate::id::{parse, Hex};
use edge_sst::{Batch, Edge, Heading, Id, Record};
use std::io::{self, Write};

pub fn direction(inverse: bool) -> &'static str {
    match inverse {
        true => "inverse",
        false => "forward",
    }
}

/// Prints an edge on a line.
pub fn print_edge(out: &mut dyn Write, key: &Id, edge: &Edge) -> io::Result<()> {
    let (key, partner) = (Hex(key), Hex(&edge.partner));
    let state = if edge.dead { "dead" } else { "live" };
    writeln!(out, "{key} {partner} lsn {} {state}", edge.log)
}

/// Prints a batch.
pub fn print(out: &mut dyn Write, batch: &Batch) -> io::Result<()> {
    let heading = batch.heading();
    let direction = direction(heading.inverse);
    let (source, destination) = (Hex(&heading.source), Hex(&heading.destination));
    let edge_type = Hex(&heading.edge_type);
    writeln!(out, "batch {direction} {edge_type} {source} {destination}")?;
    for record in batch.records() {
        print_edge(out, &record.key, &edge_of(&record))?;
    }
    Ok(())
}

/// The edge of a record, without its key.
pub fn edge_of(record: &Record) -> Edge {
    Edge {
        partner: record.partner,
        log: record.log,
        dead: record.dead,
    }
}

/// Reads the heading's line, or says what is wrong with it.
pub fn read_heading(line: &str) -> Result<Heading, String> {
    let words: Vec<&str> = line.split_whitespace().collect();
    match words[..] {
        ["batch", direction, edge_type, source, destination] => Ok(Heading {
            inverse: one_of(direction, "forward", "inverse")?,
            edge_type: id(edge_type)?,
            source: id(source)?,
            destination: id(destination)?,
        }),
        ["edge-sst", ..] => Err("this is what print gives, which has no ids: \
             a batch comes from read-out, its text from to-text"
            .to_string()),
        _ => Err(
            "the heading is 'batch forward TYPE SOURCE DESTINATION', or 'batch inverse ..'"
                .to_string(),
        ),
    }
}

/// Reads an edge's line, or says what is wrong with it.
pub fn read_edge(line: &str) -> Result<Record, String> {
    let words: Vec<&str> = line.split_whitespace().collect();
    match words[..] {
        [key, partner, "lsn", log, state] => Ok(Record {
            key: id(key)?,
            partner: id(partner)?,
            log: number(log)?,
            dead: one_of(state, "live", "dead")?,
        }),
        _ => Err("an edge is 'KEY PARTNER lsn NUMBER live', or '.. dead'".to_string()),
    }
}

fn id(word: &str) -> Result<Id, String> {
    parse(word).ok_or_else(|| format!("'{word}' is no id: 32 hexadecimal digits"))
}

/// A decimal number below 2^64, of digits alone.
fn number(word: &str) -> Result<u64, String> {
    let digits = word.bytes().all(|byte| byte.is_ascii_digit());
    let number = word.parse().ok().filter(|_| digits);
    number.ok_or_else(|| format!("'{word}' is no log number: 0 to 2^64 - 1"))
}

/// Whether the word is the second of two.
fn one_of(word: &str, first: &str, second: &str) -> Result<bool, String> {
    match word {
        _ if word == first => Ok(false),
        _ if word == second => Ok(true),
        _ => Err(format!("'{word}' is neither '{first}' nor '{second}'")),
    }
}
