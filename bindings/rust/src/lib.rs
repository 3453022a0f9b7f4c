//! Safe calls for edge SST files, over the proved archive `libedge_sst_c.a`.
//!
//! The workbench opens a file once and looks up keys: [`EdgeSst::open`],
//! [`Opened::partners`], [`Opened::lookup`]. The release desk takes nothing from a
//! file with one wrong section byte: [`check`], [`read_out`]. The query planner asks
//! for the counts and degrees of a file that passes: [`summary()`]. [`write`] makes a
//! file of a batch, [`Batch`] reads its records, and [`sum`] is XXH3-64 alone, which
//! [`RunningSum`] takes of bytes that come in chunks.
//!
//! Any bytes may be given: each call answers, or refuses with a [`Refusal`].
//!
//! The archive asks that no pointer is null, also where there are no bytes. The
//! pointers of Rust's slices and vectors never are, so callers of this crate have
//! nothing to see to. What is trusted here are the declarations in `ffi.rs`.
//!
//! ```
//! use edge_sst::EdgeSst;
//! let file = std::fs::read("../../samples/example.edges").unwrap();
//! let opened = EdgeSst::open(&file).unwrap();
//! for key in opened.keys() {
//!     let found = opened.partners(key).unwrap().expect("a key of the file");
//!     println!("{} partners", found.ids.len());
//! }
//! ```

mod batch;
mod ffi;
mod opened;
mod refusal;
mod running;
mod summary;

pub use batch::{Batch, Heading, Record};
pub use opened::{Edge, EdgeSst, Edges, Header, Id, Opened, Partners, Section};
pub use refusal::Refusal;
pub use running::RunningSum;
pub use summary::{Extremes, Summary};

use refusal::refuse_if;

/// Checks a file in full: opening, the checksum of every section, every group, and
/// what they say together. Refusals 1 to 16, 22, 23 and 28 to 37.
pub fn check(file: &[u8]) -> Result<(), Refusal> {
    // SAFETY: the pointer and length are of one slice, and not null.
    let told = unsafe { ffi::edge_sst_check(file.as_ptr(), file.len()) };
    refuse_if(told.number, told.place, told.beside)
}

/// Reads a file out to a batch, after checking it in full: a heading of 50 bytes
/// (kind 3, direction, three ids) and 41 for each edge (kind 1 live or 2 dead, key,
/// partner, log number).
pub fn read_out(file: &[u8]) -> Result<Vec<u8>, Refusal> {
    // A file that passes has as many edges as opening says; what one has to open
    // holds 8 bytes for each, so that no small file asks for much room.
    let edges = EdgeSst::open(file)?.edge_count() as usize;
    let mut batch = vec![0; Heading::LEN + Record::LEN * edges];
    // SAFETY: the pointers and lengths are of slices, and none is null.
    let done = unsafe {
        ffi::edge_sst_read_out(file.as_ptr(), file.len(), batch.as_mut_ptr(), batch.len())
    };
    refuse_if(done.number, done.place, done.beside)?;
    batch.truncate(done.bytes as usize);
    Ok(batch)
}

/// Counts a file's keys, edges, tombstones and degrees, after checking it in full: the
/// refusals of [`check`].
///
/// ```
/// let file = std::fs::read("../../samples/board.edges").unwrap();
/// let summary = edge_sst::summary(&file).unwrap();
/// // Keys of four partners and more.
/// let many: u64 = summary.buckets[2..].iter().sum();
/// assert_eq!((many, summary.key_count), (5, 12));
/// ```
pub fn summary(file: &[u8]) -> Result<Summary, Refusal> {
    // SAFETY: the pointer and length are of one slice, and not null.
    let told = unsafe { ffi::edge_sst_summary(file.as_ptr(), file.len()) };
    refuse_if(told.number, told.place, told.beside)?;
    Ok(Summary::of(&told))
}

/// Writes the file of a batch: refusals 24 to 26. The batch has the form that
/// [`read_out`] gives; its edges strictly rise by key, then partner.
pub fn write(batch: &[u8]) -> Result<Vec<u8>, Refusal> {
    let mut file = vec![0; needed(batch)?];
    // SAFETY: the pointers and lengths are of slices, and none is null.
    let done =
        unsafe { ffi::edge_sst_write(batch.as_ptr(), batch.len(), file.as_mut_ptr(), file.len()) };
    refuse_if(done.number, done.place, done.beside)?;
    file.truncate(done.bytes as usize);
    Ok(file)
}

/// How many bytes the file of a batch takes.
pub fn needed(batch: &[u8]) -> Result<usize, Refusal> {
    // SAFETY: the pointer and length are of one slice, and not null.
    let done = unsafe { ffi::edge_sst_needed(batch.as_ptr(), batch.len()) };
    refuse_if(done.number, done.place, done.beside)?;
    Ok(done.bytes as usize)
}

/// XXH3-64 of the bytes: seed 0, default secret.
pub fn sum(bytes: &[u8]) -> u64 {
    // SAFETY: the pointer and length are of one slice, and not null.
    unsafe { ffi::edge_sst_sum(bytes.as_ptr(), bytes.len()) }
}
