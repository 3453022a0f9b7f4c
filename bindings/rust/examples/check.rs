//! Checks files in full and says on a line for each whether it is fine.
//!
//!     cargo run --offline --example check -- FILE..
//!
//! Status: 0 all fine, 1 one is refused, 2 usage or input.

use std::process::ExitCode;

fn main() -> ExitCode {
    let paths: Vec<String> = std::env::args().skip(1).collect();
    if paths.is_empty() {
        eprintln!("usage: check FILE..");
        return ExitCode::from(2);
    }
    let mut status = ExitCode::SUCCESS;
    for path in &paths {
        let file = match std::fs::read(path) {
            Ok(file) => file,
            Err(error) => {
                eprintln!("{path}: {error}");
                return ExitCode::from(2);
            }
        };
        match edge_sst::check(&file) {
            Ok(()) => println!("{path}: fine"),
            Err(refusal) => {
                println!("{path}: {refusal}");
                status = ExitCode::from(1);
            }
        }
    }
    status
}
