//! edge-sst: edge SST files on the command line, over the proved archive.
//!
//! What a file holds, and what is wrong with it, the library says; here is what
//! stands around its calls: the words of the command line, files in and out, and
//! answers as text or JSON. Each command is a file of its own in `commands/`.

#![forbid(unsafe_code)]

mod arguments;
mod batch_text;
mod commands;
mod failure;
mod header;
mod id;
mod input;
mod json;
mod kinds;
mod output;
mod place;
mod side_by_side;
mod watch;

use std::process::ExitCode;

fn main() -> ExitCode {
    let words = std::env::args_os().skip(1).collect();
    commands::run(words).into()
}
