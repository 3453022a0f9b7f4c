//! The records about number codes: first the cases that a slip would show in,
//! then pseudo-random ones.

use super::record::Record;
use crate::numbers::{id_of, Id};
use crate::random::Random;
use crate::varint;

pub fn records() -> Vec<Record> {
    let mut random = Random::new(1);
    [
        read_varints(&mut random),
        write_varints(&mut random),
        compare_ids(&mut random),
        read_numbers(&mut random),
        write_numbers(&mut random),
        split_ids(&mut random),
    ]
    .concat()
}

/// The marked numbers, the numbers at which a varint grows, the powers of two
/// and the largest numbers, each once and in increasing order.
fn varint_numbers() -> Vec<u64> {
    let growth = (1..=9).flat_map(|k| [(1 << (7 * k)) - 1, 1 << (7 * k), (1 << (7 * k)) + 1]);
    let powers = (0..64).map(|bit| 1 << bit);
    let mut numbers: Vec<u64> = [0, 300, u64::MAX - 1, u64::MAX].into();
    numbers.extend(growth);
    numbers.extend(powers);
    numbers.sort_unstable();
    numbers.dedup();
    numbers
}

fn read_varints(random: &mut Random) -> Vec<Record> {
    let mut strings: Vec<Vec<u8>> = [
        &[][..],
        &[0x00],
        &[0x7F],
        &[0x80, 0x01],
        &[0xAC, 0x02],
        &[0x80, 0x00],
    ]
    .map(<[u8]>::to_vec)
    .into();
    strings.extend(varint_numbers().into_iter().flat_map(whole_and_cut));
    strings.extend(not_shortest());
    strings.extend(too_large());
    strings.extend([0x00, 0x01, 0x7F, 0x80, 0xFF].map(|byte| vec![byte; 255]));
    strings.extend((0..200).map(|_| any_bytes(random)));
    strings.extend((0..400).map(|_| bytes_that_go_on(random)));
    strings.into_iter().map(Record::ReadVarint).collect()
}

/// A number's varint alone, with other bytes after it, and cut at each place.
fn whole_and_cut(number: u64) -> Vec<Vec<u8>> {
    let whole = varint::write(number);
    let mut strings = vec![whole.clone()];
    let others = [&[0x00][..], &[0x01], &[0x80], &[0xFF, 0xFF], &[0x80, 0x00]];
    strings.extend(others.map(|after| [&whole[..], after].concat()));
    strings.extend((1..whole.len()).map(|cut| whole[..cut].to_vec()));
    strings
}

/// At most twelve bytes.
fn any_bytes(random: &mut Random) -> Vec<u8> {
    let length = random.below(13);
    (0..length).map(|_| random.byte()).collect()
}

/// Plain bytes seldom go on past the third; here seven of eight go on, so that
/// long varints come up as well.
fn bytes_that_go_on(random: &mut Random) -> Vec<u8> {
    let length = random.below(13);
    let mut byte = || match random.below(8) {
        0 => random.byte() % 4,
        _ => random.byte() | 0x80,
    };
    (0..length).map(|_| byte()).collect()
}

/// Forms that end in a 0 after other bytes, of every length from 2 to 10.
fn not_shortest() -> Vec<Vec<u8>> {
    let mut strings = Vec::new();
    for length in 2..=varint::LONGEST {
        for continued in [0x80, 0x81, 0xFF] {
            let mut string = vec![continued; length];
            string[length - 1] = 0;
            strings.push(string.clone());
            strings.push([&string[..], &[0x01]].concat());
        }
        // The shortest form of 5, drawn out to this length.
        let mut string = vec![0x80; length];
        string[0] = 0x85;
        string[length - 1] = 0;
        strings.push(string);
    }
    strings
}

/// Nine bytes that go on and a tenth above 1; beside them, tenth bytes of 0
/// and 1, which are not too large.
fn too_large() -> Vec<Vec<u8>> {
    let mut strings = Vec::new();
    for continued in [0x80, 0xFF] {
        for tenth in [0, 1, 2, 3, 127, 128, 129, 255] {
            for after in [&[][..], &[0x00], &[0x01], &[0x80], &[0xFF, 0x00]] {
                strings.push([&[continued; 9][..], &[tenth], after].concat());
            }
        }
        strings.push([&[continued; 10][..], &[0x02]].concat());
        strings.push(vec![continued; 11]);
        strings.push(vec![continued; 12]);
    }
    strings
}

fn write_varints(random: &mut Random) -> Vec<Record> {
    let mut numbers = varint_numbers();
    // A shift by each amount in turn makes all lengths come up alike.
    numbers.extend(
        (0..64)
            .flat_map(|shift| [shift; 2])
            .map(|shift| random.number() >> shift),
    );
    numbers.into_iter().map(Record::WriteVarint).collect()
}

/// Pairs of ids, each of them both ways round.
fn compare_ids(random: &mut Random) -> Vec<Record> {
    let mut pairs = vec![
        (ZEROS, ONES),
        (ZEROS, ZEROS),
        (ONES, ONES),
        (COUNTING, COUNTING),
    ];
    pairs.extend((0..16).flat_map(one_byte_apart));
    pairs.extend(two_bytes_that_disagree());
    pairs.extend(unlike_halves());
    pairs.extend((0..40).flat_map(|_| random_ids(random)));
    pairs
        .into_iter()
        .flat_map(|(a, b)| [Record::CompareIds(a, b), Record::CompareIds(b, a)])
        .collect()
}

const ZEROS: Id = [0x00; 16];
const ONES: Id = [0xFF; 16];
const COUNTING: Id = *b"\x10\x11\x12\x13\x14\x15\x16\x17\x18\x19\x1A\x1B\x1C\x1D\x1E\x1F";

/// The id with another byte at a place.
fn with(mut id: Id, at: usize, byte: u8) -> Id {
    id[at] = byte;
    id
}

/// Ids that differ at one place alone.
fn one_byte_apart(at: usize) -> [(Id, Id); 4] {
    [
        (ZEROS, with(ZEROS, at, 1)),
        (ONES, with(ONES, at, 0xFE)),
        (COUNTING, with(COUNTING, at, COUNTING[at] + 1)),
        // Bytes that a signed comparison would turn round.
        (with(COUNTING, at, 0x7F), with(COUNTING, at, 0x80)),
    ]
}

/// Two bytes that disagree: the earlier one decides, where a little-endian
/// comparison would let the later one decide.
fn two_bytes_that_disagree() -> Vec<(Id, Id)> {
    let places = (0..16).flat_map(|first| (first + 1..16).map(move |second| (first, second)));
    places
        .map(|(first, second)| {
            let up = with(COUNTING, first, COUNTING[first] + 1);
            (COUNTING, with(up, second, COUNTING[second] - 1))
        })
        .collect()
}

/// Halves that disagree or are alike, at the ends of their range.
fn unlike_halves() -> [(Id, Id); 5] {
    [
        (id_of(1, u64::MAX), id_of(2, 0)),
        (id_of(0, u64::MAX), id_of(u64::MAX, 0)),
        (id_of(5, 1 << 63), id_of(5, (1 << 63) - 1)),
        (id_of(1 << 63, 5), id_of((1 << 63) - 1, 6)),
        (id_of(7, 0), id_of(7, u64::MAX)),
    ]
}

/// An id beside any other, and beside one with the same upper half.
fn random_ids(random: &mut Random) -> [(Id, Id); 2] {
    let (upper, lower) = (random.number(), random.number());
    let id = id_of(upper, lower);
    [(id, random.bytes()), (id, id_of(upper, random.number()))]
}

fn read_numbers(random: &mut Random) -> Vec<Record> {
    let mut rows = patterns::<8>();
    rows.extend((0..100).map(|_| random.bytes()));
    rows.into_iter().map(Record::ReadNumbers).collect()
}

fn write_numbers(random: &mut Random) -> Vec<Record> {
    let edges = (1..8).flat_map(|k| [(1 << (8 * k)) - 1, 1 << (8 * k), (1 << (8 * k)) + 1]);
    let mut numbers: Vec<u64> = [0, 1, u64::MAX, 1 << 63, 0x0102030405060708].into();
    numbers.extend(edges);
    numbers.extend((0..20).map(|_| random.number()));
    let at_width = |width| {
        let record = move |&number| Record::WriteNumber { width, number };
        numbers.iter().map(record)
    };
    (1..=8).flat_map(at_width).collect()
}

fn split_ids(random: &mut Random) -> Vec<Record> {
    let mut ids = patterns::<16>();
    ids.extend((0..60).map(|_| random.bytes()));
    ids.into_iter().map(Record::SplitId).collect()
}

/// Rows of equal bytes, rows that count up and down, and rows in which one
/// byte stands out, at each place.
fn patterns<const N: usize>() -> Vec<[u8; N]> {
    let mut rows: Vec<[u8; N]> = [0x00, 0x01, 0x7F, 0x80, 0xFF].map(|byte| [byte; N]).into();
    rows.push(std::array::from_fn(|i| 1 + i as u8));
    rows.push(std::array::from_fn(|i| 0xFF - i as u8));
    for at in 0..N {
        for (ground, byte) in [(0x00, 0x01), (0x00, 0x80), (0x00, 0xFF), (0xFF, 0x00)] {
            let mut row = [ground; N];
            row[at] = byte;
            rows.push(row);
        }
    }
    rows
}
