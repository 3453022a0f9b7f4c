//! Prints the partners of one key, or all keys of a file and their degrees.
//!
//!     cargo run --offline --example show -- FILE [KEY]

use edge_sst::{EdgeSst, Id, Opened};
use std::error::Error;
use std::process::ExitCode;

fn hex(id: &Id) -> String {
    id.iter().map(|byte| format!("{byte:02x}")).collect()
}

fn key_of(text: &str) -> Result<Id, Box<dyn Error>> {
    if text.len() != 32 {
        return Err("the key is 32 hexadecimal digits".into());
    }
    Ok(u128::from_str_radix(text, 16)?.to_be_bytes())
}

fn show_key(file: &Opened, key: &Id) -> Result<(), Box<dyn Error>> {
    match file.lookup(key)? {
        None => println!("absent"),
        Some(found) => found.edges.iter().for_each(|edge| {
            let state = if edge.dead { "dead" } else { "live" };
            println!("{} lsn {} {state}", hex(&edge.partner), edge.log);
        }),
    }
    Ok(())
}

/// A faulty group is told and the others still shown.
fn show_keys(file: &Opened) {
    for key in file.keys() {
        match file.partners(key) {
            Ok(found) => println!("{} {}", hex(key), found.map_or(0, |f| f.ids.len())),
            Err(refusal) => println!("{} {refusal}", hex(key)),
        }
    }
}

fn show() -> Result<(), Box<dyn Error>> {
    let mut arguments = std::env::args().skip(1);
    let path = arguments.next().ok_or("show FILE [KEY]")?;
    let bytes = std::fs::read(path)?;
    let file = EdgeSst::open(&bytes)?;
    match arguments.next() {
        Some(key) => show_key(&file, &key_of(&key)?)?,
        None => show_keys(&file),
    }
    Ok(())
}

fn main() -> ExitCode {
    match show() {
        Ok(()) => ExitCode::SUCCESS,
        Err(error) => {
            eprintln!("{error}");
            ExitCode::FAILURE
        }
    }
}
