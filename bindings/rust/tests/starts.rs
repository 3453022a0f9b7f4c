//! The start index of a file: written, seen, and refused where it breaks its rule.

use edge_sst::{check, needed, read_out, sum, summary, write, EdgeSst, Refusal};

/// So many keys with one edge each; key i has log number 3 i.
fn batch(keys: u64) -> Vec<u8> {
    let mut batch = vec![0; 50];
    batch[0] = 3;
    for i in 0..keys {
        batch.push(1);
        batch.extend(u128::from(i).to_be_bytes());
        batch.extend([7; 16]);
        batch.extend((3 * i).to_le_bytes());
    }
    batch
}

fn file(keys: u64) -> Vec<u8> {
    write(&batch(keys)).expect("a sound batch")
}

fn refusal(number: u64, place: u64) -> Refusal {
    Refusal {
        number,
        place,
        beside: 0,
    }
}

/// The file with another entry in its start index, its last section, and both sums set
/// right.
fn with_start(file: &[u8], index: usize, number: u64) -> Vec<u8> {
    let mut file = file.to_vec();
    let range = EdgeSst::open(&file).unwrap().start_index().expect("one");
    file[range.start + 8 * index..][..8].copy_from_slice(&number.to_le_bytes());
    let end = file.len() - 20;
    let length = u32::from_le_bytes(file[end + 8..end + 12].try_into().unwrap());
    let footer = file.len() - length as usize;
    // The sum is the last of the 28 bytes before the counts, 17 bytes.
    let section = sum(&file[range]).to_le_bytes();
    file[end - 17 - 8..end - 17].copy_from_slice(&section);
    let body = sum(&file[footer..end]).to_le_bytes();
    file[end..end + 8].copy_from_slice(&body);
    file
}

/// From 1,025 keys on, as the last section, and then at minor version 1.
#[test]
fn the_writer_makes_one_from_1025_keys_on() {
    for keys in [0, 1, 1024, 1025] {
        let file = file(keys);
        let indexed = keys == 1025;
        assert_eq!(needed(&batch(keys)).unwrap(), file.len());
        let opened = EdgeSst::open(&file).unwrap();
        assert_eq!(opened.header().unwrap().minor, u8::from(indexed));
        assert_eq!(opened.start_index().is_some(), indexed);
        let last = *opened.sections().unwrap().last().expect("a section");
        assert_eq!(last.kind == 0x0200, indexed);
        assert_eq!(read_out(&file).unwrap(), batch(keys));
    }
}

#[test]
fn its_range_is_seen_and_its_entries_count_edges() {
    let file = file(1025);
    let opened = EdgeSst::open(&file).unwrap();
    let range = opened.start_index().expect("a start index");
    let last = *opened.sections().unwrap().last().expect("a section");
    let listed = last.start as usize..(last.start + last.len) as usize;
    assert_eq!((range.clone(), range.len()), (listed, 8 * 1026));
    let entries = file[range].chunks_exact(8);
    for (i, entry) in (0_u64..).zip(entries) {
        assert_eq!(entry, i.to_le_bytes());
    }
    for (i, key) in (0_u64..).zip(opened.keys()) {
        let found = opened.lookup(key).unwrap().expect("a key of the file");
        assert_eq!((found.index, found.edges[0].log), (i, 3 * i));
    }
}

/// 37 at the first entry that breaks a rule, told by every call that opens the file.
#[test]
fn a_bad_entry_is_refused_at_its_index() {
    let sound = file(1025);
    for (index, number, place) in [
        (0, 1, 0),
        (1, 0, 1),
        (500, 499, 500),
        (500, 0, 500),
        (500, 501, 501),
        (500, u64::MAX, 501),
        (1025, 1024, 1025),
        (1025, 1026, 1025),
        (1025, u64::MAX, 1025),
    ] {
        let file = with_start(&sound, index, number);
        let told = refusal(37, place);
        assert_eq!(EdgeSst::open(&file).unwrap_err(), told, "{index} {number}");
        assert_eq!(check(&file), Err(told));
        assert_eq!(read_out(&file), Err(told));
        assert_eq!(summary(&file), Err(told));
    }
    let told = "refused 37 at 9: start index entry";
    assert_eq!(refusal(37, 9).to_string(), told);
}

/// An index that rises lawfully and is wrong: the file opens, the full check refuses it,
/// and so do the lookups of the two keys beside the entry.
#[test]
fn a_wrong_entry_is_seen_by_the_full_check() {
    let mut batch = batch(1025);
    let mut more = batch[50..91].to_vec();
    more[17..33].copy_from_slice(&[9; 16]);
    batch.splice(91..91, more);
    let sound = write(&batch).expect("a sound batch");
    // Key 0 has two edges now.
    let file = with_start(&sound, 1, 1);
    assert_eq!(check(&file), Err(refusal(23, 0)));
    let opened = EdgeSst::open(&file).unwrap();
    for (i, key) in (0..).zip(opened.keys()).take(4) {
        assert!(opened.partners(key).unwrap().is_some());
        match i {
            0 | 1 => assert_eq!(opened.lookup(key), Err(refusal(19, i))),
            _ => assert!(opened.lookup(key).unwrap().is_some()),
        }
    }
}
