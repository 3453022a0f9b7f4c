//! Lookups by records that opening did not give: with the start index taken away,
//! claimed, or said to lie elsewhere.

use super::*;

/// 1,025 keys, the fewest for which the writer makes a start index. Key i has one
/// partner, or two if i is odd; each seventh edge is dead.
fn file() -> Vec<u8> {
    let mut batch = vec![0; 50];
    batch[0] = 3;
    let mut number: u64 = 0;
    for key in 0..1025_u128 {
        for partner in 0..=key % 2 {
            batch.push(if number % 7 == 3 { 2 } else { 1 });
            batch.extend(key.to_be_bytes());
            batch.extend(partner.to_be_bytes());
            batch.extend(number.to_le_bytes());
            number += 1;
        }
    }
    crate::write(&batch).expect("a sound batch")
}

fn refused<T>(number: u64, place: u64) -> Result<T, Refusal> {
    Err(Refusal {
        number,
        place,
        beside: 0,
    })
}

/// The opened file with its record changed.
fn changed<'a>(opened: &Opened<'a>, change: impl Fn(&mut ffi::Opened)) -> Opened<'a> {
    let mut other = *opened;
    change(&mut other.record);
    other
}

#[test]
fn without_the_index_the_lookups_are_the_same() {
    let file = file();
    let opened = EdgeSst::open(&file).unwrap();
    let record = opened.record;
    assert_eq!((record.indexed, record.indexlen), (1, 8 * 1026));
    // What stands in the range then does not matter.
    for numbers in [(0, 0), (u64::MAX, u64::MAX), (1, 7)] {
        let hidden = changed(&opened, |record| {
            (record.indexstart, record.indexlen) = numbers;
            record.indexed = 0;
        });
        assert_eq!(hidden.start_index(), None);
        for key in opened.keys() {
            assert_eq!(hidden.lookup(key), opened.lookup(key));
            assert_eq!(hidden.partners(key), opened.partners(key));
        }
    }
}

/// Any number but 0 says that there is an index.
#[test]
fn every_mark_but_0_is_1() {
    let file = file();
    let opened = EdgeSst::open(&file).unwrap();
    for mark in [2, 256, 1 << 63, u64::MAX] {
        let other = changed(&opened, |record| record.indexed = mark);
        let key = &1024_u128.to_be_bytes();
        assert_eq!(other.lookup(key), opened.lookup(key));
    }
}

/// A range that leaves the file, or another length, is refused by both lookups.
#[test]
fn ranges_that_cannot_be_are_refused() {
    let file = file();
    let opened = EdgeSst::open(&file).unwrap();
    let (start, len) = (opened.record.indexstart, opened.record.indexlen);
    let size = file.len() as u64;
    for (start, len) in [
        (start, len - 8),
        (start, len - 1),
        (start, len + 1),
        (start, len + 8),
        (start, 0),
        (start, u64::MAX),
        (size - len + 1, len),
        (size, len),
        (u64::MAX, len),
        (0_u64.wrapping_sub(len), len),
    ] {
        let other = changed(&opened, |record| {
            (record.indexstart, record.indexlen) = (start, len);
        });
        for key in [0, 512, 2000_u128].map(u128::to_be_bytes) {
            assert_eq!(other.partners(&key), refused(21, 0), "{start} {len}");
            assert_eq!(other.lookup(&key), refused(21, 0), "{start} {len}");
        }
    }
}

/// A claimed index is believed where its entries agree with the degree, and refused
/// where they do not; partners alone do not look at it.
#[test]
fn a_claimed_index_is_held_to_the_degree() {
    let file = file();
    let opened = EdgeSst::open(&file).unwrap();
    // The log numbers are 0, 1, 2 and so on: as an index they say degree 1 for each.
    let claimed = changed(&opened, |record| record.indexstart = record.logstart);
    for (index, key) in opened.keys().enumerate() {
        assert_eq!(claimed.partners(key), opened.partners(key));
        let found = claimed.lookup(key);
        if index % 2 == 1 {
            assert_eq!(found, refused(19, index as u64));
            continue;
        }
        let edges = found.unwrap().expect("a key of the file").edges;
        assert_eq!((edges.len(), edges[0].log), (1, index as u64));
    }
}
