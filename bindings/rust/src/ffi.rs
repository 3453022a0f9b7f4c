//! The calls as include/edge_sst.h declares them.
//!
//! No pointer may be null, also where its length is 0: the pointer of a Rust
//! slice or `Vec` never is. Outputs may overlap nothing else that is lent: a
//! `&mut` does not.

#[repr(C)]
#[derive(Clone, Copy, Debug)]
pub struct Opened {
    pub number: u64,
    pub place: u64,
    pub beside: u64,
    pub keystart: u64,
    pub keylen: u64,
    pub offsetstart: u64,
    pub offsetlen: u64,
    pub partnerstart: u64,
    pub partnerlen: u64,
    pub logstart: u64,
    pub loglen: u64,
    pub deadstart: u64,
    pub deadlen: u64,
    pub marked: u64,
    pub keycount: u64,
    pub edgecount: u64,
    pub bits: u64,
    pub indexstart: u64,
    pub indexlen: u64,
    pub indexed: u64,
}

#[repr(C)]
#[derive(Clone, Copy, Debug)]
pub struct Header {
    pub number: u64,
    pub place: u64,
    pub beside: u64,
    pub minor: u64,
    pub direction: u64,
    pub flags: u64,
    pub edgetype: [u8; 16],
    pub source: [u8; 16],
    pub destination: [u8; 16],
}

#[repr(C)]
#[derive(Clone, Copy, Debug)]
pub struct Looked {
    pub number: u64,
    pub place: u64,
    pub beside: u64,
    pub found: u64,
    pub degree: u64,
    pub index: u64,
    pub compared: u64,
}

#[repr(C)]
#[derive(Clone, Copy, Debug)]
pub struct Told {
    pub number: u64,
    pub place: u64,
    pub beside: u64,
}

#[repr(C)]
#[derive(Clone, Copy, Debug)]
pub struct Done {
    pub number: u64,
    pub place: u64,
    pub beside: u64,
    pub bytes: u64,
}

#[repr(C)]
#[derive(Clone, Copy, Debug)]
pub struct Summary {
    pub number: u64,
    pub place: u64,
    pub beside: u64,
    pub keycount: u64,
    pub edgecount: u64,
    pub tombstones: u64,
    pub largestdegree: u64,
    pub extremes: u64,
    pub smallestkey: [u8; 16],
    pub largestkey: [u8; 16],
    pub smallestlog: u64,
    pub largestlog: u64,
    pub buckets: [u64; 64],
}

#[repr(C)]
#[derive(Clone, Copy, Debug)]
pub struct Listed {
    pub number: u64,
    pub place: u64,
    pub beside: u64,
    pub rows: u64,
}

#[repr(C)]
#[derive(Clone, Copy, Debug, PartialEq, Eq)]
pub struct Running {
    pub total: u64,
    pub lanes: [u64; 8],
    pub buffer: [u8; 256],
}

extern "C" {
    pub fn edge_sst_open(p: *const u8, n: usize) -> Opened;
    pub fn edge_sst_header(p: *const u8, n: usize) -> Header;
    pub fn edge_sst_partners_with(
        p: *const u8,
        n: usize,
        o: *const Opened,
        key: *const u8,
        out: *mut u8,
        m: usize,
    ) -> Looked;
    pub fn edge_sst_lookup_with(
        p: *const u8,
        n: usize,
        o: *const Opened,
        key: *const u8,
        out: *mut u8,
        m: usize,
        logs: *mut u64,
        l: usize,
        marks: *mut u8,
        k: usize,
    ) -> Looked;
    pub fn edge_sst_check(p: *const u8, n: usize) -> Told;
    pub fn edge_sst_read_out(p: *const u8, n: usize, out: *mut u8, m: usize) -> Done;
    pub fn edge_sst_summary(p: *const u8, n: usize) -> Summary;
    pub fn edge_sst_needed(p: *const u8, n: usize) -> Done;
    pub fn edge_sst_write(p: *const u8, n: usize, out: *mut u8, m: usize) -> Done;
    pub fn edge_sst_sum(p: *const u8, n: usize) -> u64;
    pub fn edge_sst_running_new() -> Running;
    pub fn edge_sst_running_feed(
        total: *mut u64,
        lanes: *mut u64,
        buffer: *mut u8,
        p: *const u8,
        n: usize,
    ) -> Told;
    pub fn edge_sst_running_asked(total: u64, lanes: *const u64, buffer: *const u8) -> u64;
    pub fn edge_sst_sections(p: *const u8, n: usize, numbers: *mut u64, m: usize) -> Listed;
}
