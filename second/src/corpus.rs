//! The vector files: inputs and expected outputs for the programs under test.

pub mod bad_groups;
pub mod check_files;
mod codes_vectors;
pub mod list_files;
pub mod lookup_calls;
pub mod open_files;
pub mod print_files;
mod record;
pub mod running_vectors;
pub mod write_batches;
mod xxh3_vectors;

use crate::print::print;

pub use codes_vectors::records as code_records;
pub use record::Record;

pub struct VectorFile {
    /// The path below the folder of all vectors, parts divided by `/`.
    pub path: &'static str,
    pub bytes: Vec<u8>,
}

pub fn files() -> Vec<VectorFile> {
    let mut files = code_vectors();
    files.extend(reader_vectors());
    files.extend(check_vectors());
    files.extend(sample_vectors());
    files.extend(write_vectors());
    files
}

fn code_vectors() -> Vec<VectorFile> {
    let records = code_records();
    vec![
        VectorFile {
            path: "xxh3_sum/stdin",
            bytes: xxh3_vectors::sum_input(),
        },
        VectorFile {
            path: "xxh3_sum/stdout",
            bytes: xxh3_vectors::sum_line().into_bytes(),
        },
        VectorFile {
            path: "test_xxh3/stdout",
            bytes: xxh3_vectors::lines().into_bytes(),
        },
        VectorFile {
            path: "test_running/stdout",
            bytes: running_vectors::lines().into_bytes(),
        },
        VectorFile {
            path: "../tests/c/states.txt",
            bytes: running_vectors::state_lines().into_bytes(),
        },
        VectorFile {
            path: "test_codes/stdin",
            bytes: records.iter().flat_map(Record::bytes).collect(),
        },
        VectorFile {
            path: "test_codes/stdout",
            bytes: records
                .iter()
                .flat_map(|record| format!("{}\n", record.line()).into_bytes())
                .collect(),
        },
    ]
}

fn reader_vectors() -> Vec<VectorFile> {
    let opened = open_files::small();
    let listed = list_files::files();
    let looked_up = lookup_calls::files();
    vec![
        VectorFile {
            path: "test_open/stdin",
            bytes: open_files::stdin(&opened),
        },
        VectorFile {
            path: "test_open/stdout",
            bytes: open_files::stdout(&opened),
        },
        VectorFile {
            path: "test_list/stdin",
            bytes: open_files::stdin(&listed),
        },
        VectorFile {
            path: "test_list/stdout",
            bytes: list_files::stdout(&listed),
        },
        VectorFile {
            path: "test_lookup/stdin",
            bytes: lookup_calls::stdin(&looked_up),
        },
        VectorFile {
            path: "test_lookup/stdout",
            bytes: lookup_calls::stdout(&looked_up),
        },
    ]
}

fn check_vectors() -> Vec<VectorFile> {
    let checked = check_files::files();
    let printed = print_files::files();
    vec![
        VectorFile {
            path: "test_check/stdin",
            bytes: check_files::stdin(&checked),
        },
        VectorFile {
            path: "test_check/stdout",
            bytes: check_files::stdout(&checked),
        },
        VectorFile {
            path: "test_print/stdin",
            bytes: check_files::stdin(&printed),
        },
        VectorFile {
            path: "test_print/stdout",
            bytes: print_files::stdout(&printed),
        },
    ]
}

/// The printed example as the input of the printing program, and the samples.
/// These lie beside the folder of vectors.
fn sample_vectors() -> Vec<VectorFile> {
    let example = check_files::samples::example().bytes();
    vec![
        VectorFile {
            path: "edge_sst/stdout",
            bytes: print(&example).into_bytes(),
        },
        VectorFile {
            path: "edge_sst/stdin",
            bytes: example.clone(),
        },
        VectorFile {
            path: "../samples/example.edges",
            bytes: example,
        },
        VectorFile {
            path: "../samples/board.edges",
            bytes: check_files::samples::board().bytes(),
        },
    ]
}

fn write_vectors() -> Vec<VectorFile> {
    let batches = write_batches::small();
    vec![
        VectorFile {
            path: "test_write/stdin",
            bytes: write_batches::stdin(&batches),
        },
        VectorFile {
            path: "test_write/stdout",
            bytes: write_batches::stdout(&batches),
        },
    ]
}

/// A named file or batch in an input: the length of the name in one byte, the
/// name, the length of the bytes in four, the bytes.
fn framed(name: &str, bytes: &[u8]) -> Vec<u8> {
    let mut input = vec![name.len() as u8];
    input.extend(name.bytes());
    input.extend((bytes.len() as u32).to_le_bytes());
    input.extend(bytes);
    input
}

/// What each call finds in an output of bytes.
pub fn fresh_output(length: usize) -> Vec<u8> {
    (0..length).map(|i| (7 * i + 3) as u8).collect()
}

/// The vector files too large to be kept beside the library.
pub fn large_files() -> Vec<VectorFile> {
    let opened = open_files::large();
    let batches = write_batches::large();
    vec![
        VectorFile {
            path: "test_open_large/stdin",
            bytes: open_files::stdin(&opened),
        },
        VectorFile {
            path: "test_open_large/stdout",
            bytes: open_files::stdout(&opened),
        },
        VectorFile {
            path: "test_write_large/stdin",
            bytes: write_batches::stdin(&batches),
        },
        VectorFile {
            path: "test_write_large/stdout",
            bytes: write_batches::large_stdout(&batches),
        },
    ]
}
