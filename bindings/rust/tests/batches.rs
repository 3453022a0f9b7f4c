//! The records of a batch, by the bytes that the format gives them.

use edge_sst::{read_out, write, Batch, Heading, Record};

/// The heading and an edge, byte for byte: kinds 3 and 2, and numbers little-endian.
fn bytes() -> Vec<u8> {
    let heading = [&[3, 1][..], &[0x11; 16], &[0x22; 16], &[0x33; 16]].concat();
    let log = [8, 7, 6, 5, 4, 3, 2, 1];
    let edge = [&[2][..], &[0xAA; 16], &[0xBB; 16], &log].concat();
    [heading, edge].concat()
}

fn records() -> (Heading, Record) {
    let heading = Heading {
        inverse: true,
        edge_type: [0x11; 16],
        source: [0x22; 16],
        destination: [0x33; 16],
    };
    let record = Record {
        key: [0xAA; 16],
        partner: [0xBB; 16],
        log: 0x0102_0304_0506_0708,
        dead: true,
    };
    (heading, record)
}

#[test]
fn records_are_read() {
    let bytes = bytes();
    let batch = Batch::of(&bytes).unwrap();
    let (heading, record) = records();
    assert_eq!(batch.heading(), heading);
    assert_eq!(batch.records().len(), 1);
    assert_eq!(batch.records().next(), Some(record));
}

#[test]
fn records_are_made() {
    let (heading, record) = records();
    assert_eq!([&heading.bytes()[..], &record.bytes()].concat(), bytes());
    let live = Record {
        dead: false,
        ..record
    };
    assert_eq!(live.bytes()[0], 1);
    assert_eq!(live.bytes()[1..], record.bytes()[1..]);
}

#[test]
fn faulty_batches_are_refused() {
    let good = bytes();
    let told = |bytes: &[u8]| {
        let refusal = Batch::of(bytes).expect_err("a refusal");
        (refusal.number, refusal.place)
    };
    assert_eq!(told(&[]), (24, 0));
    assert_eq!(told(&good[..49]), (24, 0));
    assert_eq!(told(&good[..90]), (24, 50));
    assert_eq!(told(&[&good[..], &good[50..]].concat()), (25, 91));
}

#[test]
fn a_read_out_is_a_batch() {
    let path = concat!(env!("CARGO_MANIFEST_DIR"), "/../../samples/board.edges");
    let bytes = read_out(&std::fs::read(path).expect("a sample")).unwrap();
    let batch = Batch::of(&bytes).unwrap();
    let mut made = batch.heading().bytes().to_vec();
    made.extend(batch.records().flat_map(|record| record.bytes()));
    assert_eq!(made, bytes);
    assert!(write(&made).is_ok());
}
