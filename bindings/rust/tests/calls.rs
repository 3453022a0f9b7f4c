//! The calls on the samples, and round trips through the writer.

use edge_sst::{
    check, needed, read_out, sum, summary, write, EdgeSst, Header, Heading, Id, Refusal,
};

fn sample(name: &str) -> Vec<u8> {
    let folder = concat!(env!("CARGO_MANIFEST_DIR"), "/../../samples/");
    std::fs::read(format!("{folder}{name}.edges")).expect("a sample")
}

fn id(high: u64, low: u64) -> Id {
    (u128::from(high) << 64 | u128::from(low)).to_be_bytes()
}

/// An edge of a batch.
#[derive(Clone, Copy, Debug, PartialEq)]
struct Record {
    key: Id,
    partner: Id,
    log: u64,
    dead: bool,
}

fn batch_of(records: &[Record]) -> Vec<u8> {
    let mut batch = vec![3, 0];
    batch.extend([7; 48]);
    for r in records {
        batch.push(if r.dead { 2 } else { 1 });
        batch.extend(r.key);
        batch.extend(r.partner);
        batch.extend(r.log.to_le_bytes());
    }
    batch
}

fn records_of(batch: &[u8]) -> Vec<Record> {
    let record = |r: &[u8]| Record {
        key: r[1..17].try_into().unwrap(),
        partner: r[17..33].try_into().unwrap(),
        log: u64::from_le_bytes(r[33..41].try_into().unwrap()),
        dead: r[0] == 2,
    };
    batch[50..].chunks_exact(41).map(record).collect()
}

/// Keys of 1 to 40 partners: more than the first guess at the room.
fn made() -> Vec<Record> {
    let edge = |key: u64, k: u64| Record {
        key: id(key, 9),
        partner: id(5 + k / 2, 1 + k),
        log: 1000 * key + k,
        dead: (key + k) % 16 == 0,
    };
    (1..=40)
        .flat_map(|key| (0..key).map(move |k| edge(key, k)))
        .collect()
}

fn refused<T: std::fmt::Debug>(answer: Result<T, Refusal>) -> (u64, u64) {
    let refusal = answer.expect_err("a refusal");
    (refusal.number, refusal.place)
}

/// Every key of the file answers what the records say, and nothing else is there.
fn holds(file: &[u8], records: &[Record]) {
    let opened = EdgeSst::open(file).unwrap();
    let runs: Vec<&[Record]> = records.chunk_by(|a, b| a.key == b.key).collect();
    assert_eq!(opened.edge_count(), records.len() as u64);
    assert_eq!(opened.key_count(), runs.len() as u64);
    assert!(opened.keys().eq(runs.iter().map(|run| &run[0].key)));
    for (i, run) in runs.iter().enumerate() {
        let partners = opened.partners(&run[0].key).unwrap().expect("a key");
        let found = opened.lookup(&run[0].key).unwrap().expect("a key");
        assert!(partners.ids.iter().eq(run.iter().map(|r| &r.partner)));
        assert_eq!((partners.index, found.index), (i as u64, i as u64));
        assert_eq!(partners.compared, found.compared);
        assert!((1..=25).contains(&found.compared));
        let edges = found.edges.iter().map(|e| (e.partner, e.log, e.dead));
        assert!(edges.eq(run.iter().map(|r| (r.partner, r.log, r.dead))));
    }
    assert_eq!(opened.partners(&[255; 16]), Ok(None));
    assert_eq!(opened.lookup(&[0; 16]), Ok(None));
}

#[test]
fn the_example_has_one_edge() {
    let file = sample("example");
    assert_eq!(check(&file), Ok(()));
    let found = EdgeSst::open(&file)
        .unwrap()
        .lookup(&id(1, 2))
        .unwrap()
        .unwrap();
    assert_eq!(found.edges.len(), 1);
    assert_eq!(found.edges[0].partner, id(5, 1));
    assert_eq!((found.edges[0].log, found.edges[0].dead), (7, false));
    assert_eq!((found.index, found.compared), (0, 1));
}

#[test]
fn samples_answer_as_their_read_out() {
    for name in ["example", "board"] {
        let file = sample(name);
        holds(&file, &records_of(&read_out(&file).unwrap()));
    }
}

#[test]
fn the_board_has_12_keys_and_40_edges() {
    let file = sample("board");
    let opened = EdgeSst::open(&file).unwrap();
    assert_eq!((opened.key_count(), opened.edge_count()), (12, 40));
}

#[test]
fn samples_are_written_again() {
    for name in ["example", "board"] {
        let batch = read_out(&sample(name)).unwrap();
        let file = write(&batch).unwrap();
        assert_eq!(file.len(), needed(&batch).unwrap());
        assert_eq!(check(&file), Ok(()));
        assert_eq!(read_out(&file).unwrap(), batch);
    }
    assert_eq!(
        write(&read_out(&sample("example")).unwrap()).unwrap(),
        sample("example")
    );
}

#[test]
fn a_batch_is_written_and_read_back() {
    let records = made();
    let batch = batch_of(&records);
    let file = write(&batch).unwrap();
    assert_eq!(check(&file), Ok(()));
    assert_eq!(read_out(&file).unwrap(), batch);
    holds(&file, &records);
}

#[test]
fn a_heading_alone_makes_218_bytes() {
    let file = write(&batch_of(&[])).unwrap();
    assert_eq!(file.len(), 218);
    holds(&file, &[]);
}

#[test]
fn batches_are_refused_at_their_record() {
    let mut records = made();
    records[3] = records[2];
    assert_eq!(refused(write(&batch_of(&records))), (25, 50 + 3 * 41));
    assert_eq!(refused(write(&[])), (24, 0));
    assert_eq!(refused(write(&batch_of(&made())[..60])), (24, 50));
}

#[test]
fn every_changed_section_byte_is_refused() {
    let file = sample("board");
    let footer = file[file.len() - 12..file.len() - 8].try_into().unwrap();
    let end = file.len() - u32::from_le_bytes(footer) as usize;
    for place in 64..end {
        let mut changed = file.clone();
        changed[place] ^= 1;
        assert!(check(&changed).is_err(), "byte {place}");
        assert!(read_out(&changed).is_err(), "byte {place}");
        assert_eq!(summary(&changed).err(), check(&changed).err());
    }
}

#[test]
fn cut_files_are_refused() {
    let file = sample("board");
    for n in 0..file.len() {
        assert!(EdgeSst::open(&file[..n]).is_err(), "{n} bytes");
        assert_eq!(
            refused(check(&file[..n])),
            refused(EdgeSst::open(&file[..n]))
        );
        assert_eq!(summary(&file[..n]).err(), check(&file[..n]).err());
    }
    assert_eq!(refused(EdgeSst::open(&[])), (1, 0));
}

#[test]
fn sums_of_known_bytes() {
    assert_eq!(sum(&[]), 0x2d06800538d394c2);
    assert_eq!(sum(&sample("example")[64..80]), 0xc4846c74c4b320ad);
}

fn refusal_of(number: u64, place: u64) -> Refusal {
    Refusal {
        number,
        place,
        beside: 0,
    }
}

/// The texts are those of the C header.
#[test]
fn texts_are_the_headers() {
    let header = concat!(env!("CARGO_MANIFEST_DIR"), "/../../include/edge_sst.h");
    let header = std::fs::read_to_string(header).expect("the header");
    let (_, table) = header.split_once("texts[] = {").unwrap();
    let (table, _) = table.split_once("};").unwrap();
    let texts: Vec<&str> = table.split('"').skip(1).step_by(2).collect();
    assert!(texts.len() > 26);
    for (number, text) in (0..).zip(&texts) {
        assert_eq!(refusal_of(number, 0).text(), *text);
    }
    assert_eq!(refusal_of(texts.len() as u64, 0).text(), "unknown refusal");
    let error: Box<dyn std::error::Error> = Box::new(refusal_of(14, 3));
    assert_eq!(error.to_string(), "refused 14 at 3: offset");
}

/// A fault within a group is told with both places, every other refusal with one.
#[test]
fn the_text_of_a_groups_fault_has_both_places() {
    let refusal = |number: u64| Refusal {
        number,
        place: 17,
        beside: 3,
    };
    for number in [16, 28, 29, 30, 31, 32, 33, 34, 35] {
        let text = refusal(number).text();
        let expected = format!("refused {number} at group 3, byte 17: {text}");
        assert_eq!(refusal(number).to_string(), expected);
    }
    let order = "refused 29 at group 3, byte 17: partner order";
    assert_eq!(refusal(29).to_string(), order);
    for number in [14, 19, 20, 24] {
        let told = refusal(number).to_string();
        assert!(told.starts_with(&format!("refused {number} at 17: ")));
    }
}

/// Bytes put over a group of the board: the group and where it begins in the file, where
/// in the group the bytes are put; the number and the byte in the group that are told.
type Damage = (u64, usize, usize, &'static [u8], u64, u64);

/// The varint of 2^64 - 1.
const MOST: &[u8] = b"\xff\xff\xff\xff\xff\xff\xff\xff\xff\x01";

/// The partner section of the board.
const PARTNERS: std::ops::Range<usize> = 296..736;

/// Group 1 is dense and has three partners, at 2, 18 and 34; group 4 is dense and has one.
/// Groups 2 and 3 are split, with two and five partners, at 2, 11, 20 and so on.
const DAMAGES: [Damage; 11] = [
    (1, 307, 1, &[0x55], 16, 1),
    (1, 307, 18, &[0], 29, 18),
    (1, 307, 0, &[2], 32, 34),
    (2, 357, 0, &[0], 28, 0),
    (2, 357, 0, &[3], 33, 20),
    (2, 357, 11, &[0x80, 0], 34, 11),
    (2, 357, 11, &[0x80, 1], 31, 11),
    (3, 377, 11, &[0xff; 10], 35, 11),
    (3, 377, 11, MOST, 30, 11),
    (3, 377, 0, &[0x80; 10], 35, 0),
    (4, 424, 0, &[2], 31, 18),
];

/// The board with the sum of its partners, which was this one, and that of its footer set
/// right.
fn mended(mut file: Vec<u8>, old: u64) -> Vec<u8> {
    let new = sum(&file[PARTNERS]).to_le_bytes();
    let at = file.windows(8).position(|bytes| bytes == old.to_le_bytes());
    let at = at.expect("the sum in the table");
    file[at..at + 8].copy_from_slice(&new);
    let end = file.len() - 20;
    let length = u32::from_le_bytes(file[end + 8..end + 12].try_into().unwrap());
    let footer = sum(&file[file.len() - length as usize..end]);
    file[end..end + 8].copy_from_slice(&footer.to_le_bytes());
    file
}

#[test]
fn faults_of_groups_are_told_with_their_byte() {
    let board = sample("board");
    let old = sum(&board[PARTNERS]);
    for (group, begin, at, bytes, number, byte) in DAMAGES {
        let mut file = board.clone();
        file[begin + at..][..bytes.len()].copy_from_slice(bytes);
        let refusal = Refusal {
            number,
            place: byte,
            beside: group,
        };
        let opened = EdgeSst::open(&file).unwrap();
        let key = opened.keys().nth(group as usize).unwrap();
        assert_eq!(opened.partners(key), Err(refusal));
        assert_eq!(opened.lookup(key), Err(refusal));
        let file = mended(file.clone(), old);
        assert_eq!(check(&file), Err(refusal));
        assert_eq!(read_out(&file), Err(refusal));
        assert_eq!(summary(&file), Err(refusal));
    }
}

#[test]
fn sections_of_the_example() {
    let file = sample("example");
    let sections = EdgeSst::open(&file).unwrap().sections().unwrap();
    let kinds: Vec<u64> = sections.iter().map(|s| s.kind).collect();
    assert_eq!(kinds, [1, 2, 3, 4]);
    for s in sections {
        let bytes = &file[s.start as usize..(s.start + s.len) as usize];
        assert_eq!((s.codec, s.name.len(), s.sum), (0, 0, sum(bytes)));
    }
}

/// The fields of the printed example; a byte of each that is changed shows in it alone,
/// since no checksum covers the header.
#[test]
fn headers_of_the_samples() {
    let file = sample("example");
    let example = EdgeSst::open(&file).unwrap().header().unwrap();
    let expected = Header {
        minor: 0,
        inverse: false,
        flags: 0,
        edge_type: [0x11; 16],
        source: [0x22; 16],
        destination: [0x33; 16],
    };
    assert_eq!(example, expected);
    let mut changed = file.clone();
    changed[9] = 200;
    changed[12] |= 8;
    changed[16] = 1;
    changed[47] = 2;
    changed[63] = 3;
    let changed = EdgeSst::open(&changed).unwrap().header().unwrap();
    assert_eq!(
        (changed.minor, changed.inverse, changed.flags),
        (200, true, 8)
    );
    assert_eq!((changed.edge_type[0], changed.edge_type[1]), (1, 0x11));
    assert_eq!((changed.source[14], changed.source[15]), (0x22, 2));
    assert_eq!((changed.destination[0], changed.destination[15]), (0x33, 3));
}

/// The header of a written file is the heading of its batch, with the writer's minor version.
#[test]
fn the_header_of_a_written_file_is_the_batchs_heading() {
    for inverse in [false, true] {
        let heading = Heading {
            inverse,
            edge_type: id(1, 2),
            source: id(3, 4),
            destination: id(5, u64::MAX),
        };
        let file = write(&heading.bytes()).unwrap();
        let header = EdgeSst::open(&file).unwrap().header().unwrap();
        let expected = Header {
            minor: 0,
            inverse,
            flags: if inverse { 8 } else { 0 },
            edge_type: heading.edge_type,
            source: heading.source,
            destination: heading.destination,
        };
        assert_eq!(header, expected);
    }
}
