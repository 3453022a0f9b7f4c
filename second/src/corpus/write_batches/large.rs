//! Batches around the key count above which the writer makes fences, with large
//! start indexes, and batches of large degrees.

use super::records::{batch, dead, live, size, size_with_dead};
use super::Batches;
use crate::numbers::{id_of, Id};
use crate::random::Random;

pub fn add(batches: &mut Batches) {
    let keys = many_keys(65_537);
    let edges: Vec<Vec<u8>> = (1..).zip(&keys).map(|(i, &key)| one(key, i)).collect();
    // Fences take one row more, a head, and 257 entries at a stride of 256.
    let size_fenced = size(65_537, 11 * 65_537, 65_537) + 28 + 8 + 24 * 257;
    batches.written("large-65537-keys", batch(&edges), size_fenced);
    batches.written("large-65536-keys", forced(&keys[..65_536]), {
        let partner_bytes = 11 * 65_534 + (3 + 9 * 1_024) + (3 + 16 * 1_025);
        size(65_536, partner_bytes, 65_534 + 1_024 + 1_025)
    });
    large_degrees(batches);
}

/// Both sides of the powers of two from 2,048 on. All groups are forced to be
/// dense; before the tag a degree has two bytes, and three from 16,384 on.
fn large_degrees(batches: &mut Batches) {
    let degrees = [
        2_047, 2_048, 4_095, 4_096, 5_000, 8_191, 8_192, 16_383, 16_384,
    ];
    let partner_bytes = 8 * 3 + 4 + 16 * 66_436;
    let edges = of_degrees(&degrees, live);
    let size_to_16384 = size(9, partner_bytes, 66_436);
    batches.written("large-degrees-to-16384", batch(&edges), size_to_16384);

    let edges = of_degrees(&[32_768, 32_767], live);
    let size_to_32768 = size(2, 2 * 4 + 16 * 65_535, 65_535);
    batches.written("large-degrees-to-32768", batch(&edges), size_to_32768);

    let edges = of_degrees(&[5_000, 65_536], dead);
    let size_dead = size_with_dead(2, 3 + 4 + 16 * 70_536, 70_536);
    batches.written("large-degrees-all-dead", batch(&edges), size_dead);
}

/// Keys of these degrees. The log numbers fall.
fn of_degrees(degrees: &[u64], edge: fn(Id, Id, u64) -> Vec<u8>) -> Vec<Vec<u8>> {
    let keyed = (1..).zip(degrees);
    keyed
        .flat_map(|(i, &degree)| {
            (0..degree).map(move |j| edge(id_of(i, 0), id_of(8, j), 1_000_000 * i - j))
        })
        .collect()
}

fn one(key: Id, i: u64) -> Vec<u8> {
    live(key, id_of(i % 100, i * i), i)
}

/// One edge for each key but two: one of degree 1,024, which is not forced to
/// be dense, and one of degree 1,025, which is.
fn forced(keys: &[Id]) -> Vec<u8> {
    let edges = (0..).zip(keys).flat_map(|(i, &key)| match i {
        30_000 => (0..1_024).map(|j| live(key, id_of(8, j), j)).collect(),
        60_000 => (0..1_025).map(|j| live(key, id_of(8, j), j)).collect(),
        _ => vec![one(key, i)],
    });
    batch(&edges.collect::<Vec<_>>())
}

/// Keys with pseudo-random distances.
fn many_keys(count: u64) -> Vec<Id> {
    let mut random = Random::new(17);
    let mut upper = 0;
    (0..count)
        .map(|_| {
            upper += random.below(1 << 40) + 1;
            id_of(upper, random.number())
        })
        .collect()
}
