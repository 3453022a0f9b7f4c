//! Makes a batch of one edge and writes its file: the bytes of samples/example.edges.
//!
//!     cargo run --offline --example write -- OUT

use edge_sst::{Heading, Id, Record};
use std::error::Error;
use std::process::ExitCode;

/// An id by its two halves: it compares as one number, the highest byte first.
fn id(upper: u64, lower: u64) -> Id {
    (u128::from(upper) << 64 | u128::from(lower)).to_be_bytes()
}

/// The heading, and then the edges in rising order, by key, then partner.
fn batch() -> Vec<u8> {
    let heading = Heading {
        inverse: false,
        edge_type: [0x11; 16],
        source: [0x22; 16],
        destination: [0x33; 16],
    };
    let edges = [Record {
        key: id(1, 2),
        partner: id(5, 1),
        log: 7,
        dead: false,
    }];
    let mut batch = heading.bytes().to_vec();
    edges.iter().for_each(|edge| batch.extend(edge.bytes()));
    batch
}

fn make(path: &str) -> Result<usize, Box<dyn Error>> {
    let file = edge_sst::write(&batch())?;
    std::fs::write(path, &file)?;
    Ok(file.len())
}

fn main() -> ExitCode {
    let Some(path) = std::env::args().nth(1) else {
        eprintln!("usage: write OUT");
        return ExitCode::from(2);
    };
    match make(&path) {
        Ok(bytes) => {
            println!("{bytes} bytes");
            ExitCode::SUCCESS
        }
        Err(error) => {
            eprintln!("{error}");
            ExitCode::FAILURE
        }
    }
}
