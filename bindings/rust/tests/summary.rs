//! The summary, with numbers written down by hand.

use edge_sst::{summary, write, Extremes, Heading, Id, Record, Summary};

fn sample(name: &str) -> Vec<u8> {
    let folder = concat!(env!("CARGO_MANIFEST_DIR"), "/../../samples/");
    std::fs::read(format!("{folder}{name}.edges")).expect("a sample")
}

fn id(high: u64, low: u64) -> Id {
    (u128::from(high) << 64 | u128::from(low)).to_be_bytes()
}

/// The edges of a key: live, and with log numbers from 1,000 on.
fn edges(key: Id, degree: u64) -> impl Iterator<Item = Record> {
    (0..degree).map(move |k| Record {
        key,
        partner: id(5 + k, 9),
        log: 1000 + k,
        dead: false,
    })
}

/// Keys 1 to 5 have 3, 5,000, 1, 4 and 2 edges.
fn five_keys() -> Vec<Record> {
    let degrees = [3, 5000, 1, 4, 2];
    let keys = (1..).map(|key| id(key, 8));
    let groups = keys.zip(degrees).map(|(key, degree)| edges(key, degree));
    groups.flatten().collect()
}

fn file_of(records: &[Record]) -> Vec<u8> {
    let heading = Heading {
        inverse: false,
        edge_type: [1; 16],
        source: [2; 16],
        destination: [3; 16],
    };
    let mut batch = heading.bytes().to_vec();
    records.iter().for_each(|edge| batch.extend(edge.bytes()));
    write(&batch).expect("a lawful batch")
}

/// So many keys in each of these buckets, and none in the others.
fn buckets(some: &[(usize, u64)]) -> [u64; 64] {
    let mut buckets = [0; 64];
    some.iter().for_each(|(i, keys)| buckets[*i] = *keys);
    buckets
}

fn five_keys_summary() -> Summary {
    Summary {
        key_count: 5,
        edge_count: 5010,
        tombstones: 0,
        largest_degree: 5000,
        extremes: Some(Extremes {
            smallest_key: id(1, 8),
            largest_key: id(5, 8),
            smallest_log: 1000,
            largest_log: 5999,
        }),
        buckets: buckets(&[(0, 1), (1, 2), (2, 1), (12, 1)]),
    }
}

#[test]
fn degrees_1_to_4_and_5000() {
    assert_eq!(summary(&file_of(&five_keys())), Ok(five_keys_summary()));
}

/// Of the 5,010 edges the first, the 9th and the last are dead, and both log numbers
/// that are extreme are of dead edges: nothing else is another.
#[test]
fn dead_edges_count_as_others() {
    let mut records = five_keys();
    for i in [0, 8, 5009] {
        records[i].dead = true;
    }
    records[8].log = u64::MAX;
    records[5009].log = 0;
    let mut expected = five_keys_summary();
    expected.tombstones = 3;
    expected.extremes = expected.extremes.map(|extremes| Extremes {
        smallest_log: 0,
        largest_log: u64::MAX,
        ..extremes
    });
    assert_eq!(summary(&file_of(&records)), Ok(expected));
}

/// Key 7 has no live edge, and is a key all the same.
#[test]
fn a_key_of_dead_edges_is_counted() {
    let mut records: Vec<Record> = edges(id(7, 7), 9).collect();
    records.iter_mut().for_each(|edge| edge.dead = true);
    let told = summary(&file_of(&records)).unwrap();
    assert_eq!(
        (told.key_count, told.edge_count, told.tombstones),
        (1, 9, 9)
    );
    assert_eq!(told.largest_degree, 9);
    assert_eq!(told.buckets, buckets(&[(3, 1)]));
}

/// On both sides of the powers of two.
#[test]
fn each_bucket_begins_at_a_power_of_two() {
    for (degree, bucket) in [
        (1, 0),
        (2, 1),
        (3, 1),
        (4, 2),
        (7, 2),
        (8, 3),
        (127, 6),
        (128, 7),
        (16_383, 13),
        (16_384, 14),
    ] {
        let records: Vec<Record> = edges(id(1, 1), degree).collect();
        let told = summary(&file_of(&records)).unwrap();
        assert_eq!(told.largest_degree, degree);
        assert_eq!(told.buckets, buckets(&[(bucket, 1)]), "degree {degree}");
    }
}

#[test]
fn a_file_without_edges_has_no_extremes() {
    let expected = Summary {
        key_count: 0,
        edge_count: 0,
        tombstones: 0,
        largest_degree: 0,
        extremes: None,
        buckets: [0; 64],
    };
    assert_eq!(summary(&file_of(&[])), Ok(expected));
}

#[test]
fn the_example_has_one_edge() {
    let expected = Summary {
        key_count: 1,
        edge_count: 1,
        tombstones: 0,
        largest_degree: 1,
        extremes: Some(Extremes {
            smallest_key: id(1, 2),
            largest_key: id(1, 2),
            smallest_log: 7,
            largest_log: 7,
        }),
        buckets: buckets(&[(0, 1)]),
    };
    assert_eq!(summary(&sample("example")), Ok(expected));
}
