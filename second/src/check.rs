//! The program's checks of itself: against outside values where there are
//! any, against a second way to the same result where there are none.

mod checking;
mod groups;
mod listing;
mod lookups;
mod opening;
mod printing;
mod running;
mod summaries;
mod writing;

use crate::corpus::{self, Record};
use crate::family;
use crate::numbers::{compare_ids, read_be, read_le, write_be, write_le};
use crate::random::Random;
use crate::varint::{self, Read};
use crate::xxh3::xxh3_64;
use std::cmp::Ordering;
use std::collections::BTreeSet;
use std::fmt::Debug;

/// Sums of the reference program; the head of the file says how they were had.
const XXHSUM_H3: &str = include_str!("../vectors/xxhsum-h3.txt");

#[derive(Default)]
pub struct Tally {
    pub passed: usize,
    pub failures: Vec<String>,
    /// What is worth knowing of checks that passed.
    pub notes: Vec<String>,
}

impl Tally {
    fn same<T: PartialEq + Debug>(&mut self, what: &str, found: T, expected: T) {
        if found == expected {
            self.passed += 1;
        } else {
            self.failures
                .push(format!("{what}: found {found:?}, expected {expected:?}"));
        }
    }
}

pub fn all() -> Tally {
    let mut tally = Tally::default();
    check_sources(&mut tally);
    check_xxh3(&mut tally);
    running::check(&mut tally);
    check_numbers(&mut tally);
    check_ids(&mut tally);
    check_varint_cases(&mut tally);
    check_varint_refusals(&mut tally);
    check_varint_round_trips(&mut tally);
    check_corpus(&mut tally);
    opening::check(&mut tally);
    listing::check(&mut tally);
    groups::check(&mut tally);
    lookups::check(&mut tally);
    checking::check(&mut tally);
    printing::check(&mut tally);
    writing::check(&mut tally);
    tally
}

/// The two sources of bytes, against published values of the same recurrences.
fn check_sources(tally: &mut Tally) {
    // What the sample rand() of the C standard gives first. It has the same
    // recurrence and shows 15 bits, of which the family takes the lower 8.
    let rand = [
        16838, 5758, 10113, 17515, 31051, 5627, 23010, 7419, 16212, 4086,
    ];
    tally.same(
        "byte family",
        family::bytes(10),
        rand.map(|r: u32| (r % 256) as u8).to_vec(),
    );
    let mut random = Random::new(1234567);
    for expected in [
        6457827717110365317,
        3203168211198807973,
        9817491932198370423,
    ] {
        tally.same("SplitMix64 from 1234567", random.number(), expected);
    }
}

fn check_xxh3(tally: &mut Tally) {
    tally.same("xxh3 of nothing", xxh3_64(&[]), 0x2D06800538D394C2);

    let vectors: Vec<(usize, u64)> = XXHSUM_H3
        .lines()
        .filter(|line| !line.starts_with('#'))
        .map(|line| {
            let (length, sum) = line.split_once(' ').expect("LENGTH SUM");
            let sum = u64::from_str_radix(sum, 16).expect("a hexadecimal sum");
            (length.parse().expect("a decimal length"), sum)
        })
        .collect();
    let long = [256, 511, 512, 513, 1023, 1024, 1025, 2048, 4096, 65536];
    tally.same(
        "lengths in the list of xxhsum",
        vectors.iter().map(|vector| vector.0).collect::<Vec<_>>(),
        (0..=240).chain(long).collect(),
    );
    let family = family::bytes(65536);
    for (length, sum) in vectors {
        tally.same(
            &format!("xxh3 of {length} bytes"),
            format!("{:016x}", xxh3_64(&family[..length])),
            format!("{sum:016x}"),
        );
    }
}

fn check_numbers(tally: &mut Tally) {
    tally.same("le 3 bytes", read_le(&[0x01, 0x02, 0x03]), 0x030201);
    tally.same("be 3 bytes", read_be(&[0x01, 0x02, 0x03]), 0x010203);
    tally.same("put le", write_le(0x0A0B0C0D, 3), vec![0x0D, 0x0C, 0x0B]);
    tally.same("put be", write_be(0x0A0B0C0D, 3), vec![0x0B, 0x0C, 0x0D]);
    for x in many_numbers() {
        tally.same("le 8 bytes", read_le(&x.to_le_bytes()), x);
        tally.same("be 8 bytes", read_be(&x.to_be_bytes()), x);
        for width in 1..=8 {
            let low = (u128::from(x) % (1 << (8 * width))) as u64;
            let what = format!("{x} at width {width}");
            tally.same(&what, read_le(&write_le(x, width)), low);
            tally.same(&what, read_be(&write_be(x, width)), low);
            tally.same(&what, &write_le(x, width)[..], &x.to_le_bytes()[..width]);
            tally.same(
                &what,
                &write_be(x, width)[..],
                &x.to_be_bytes()[8 - width..],
            );
        }
    }
}

/// Arrays compare byte by byte from the first, which is what the order of ids
/// as big-endian numbers has to equal.
fn check_ids(tally: &mut Tally) {
    let (mut low, mut high) = ([0xFF; 16], [0x00; 16]);
    (low[0], high[0]) = (0, 1);
    tally.same("ids less", compare_ids(&low, &high), Ordering::Less);
    tally.same("ids greater", compare_ids(&high, &low), Ordering::Greater);
    tally.same("ids equal", compare_ids(&low, &low), Ordering::Equal);
    for record in corpus::code_records() {
        if let Record::CompareIds(a, b) = record {
            tally.same("ids as arrays", compare_ids(&a, &b), a.cmp(&b));
        }
    }
}

fn check_varint_cases(tally: &mut Tally) {
    let marked: [(u64, &[u8]); 6] = [
        (0, &[0x00]),
        (127, &[0x7F]),
        (128, &[0x80, 0x01]),
        (300, &[0xAC, 0x02]),
        (1 << 63, b"\x80\x80\x80\x80\x80\x80\x80\x80\x80\x01"),
        (u64::MAX, b"\xFF\xFF\xFF\xFF\xFF\xFF\xFF\xFF\xFF\x01"),
    ];
    for (value, bytes) in marked {
        let next = bytes.len();
        tally.same("marked varint written", &varint::write(value)[..], bytes);
        tally.same("marked varint length", varint::length(value), next);
        tally.same(
            "marked varint read",
            varint::read(bytes, 0),
            Read::Value { value, next },
        );
    }
}

fn check_varint_refusals(tally: &mut Tally) {
    let mut refused = |head: u8, times: usize, tail: &[u8], expected: Read| {
        let bytes = [&vec![head; times][..], tail].concat();
        tally.same(&format!("{bytes:02X?}"), varint::read(&bytes, 0), expected);
    };
    refused(0, 0, &[], Read::Cut);
    refused(0x80, 1, &[], Read::Cut);
    refused(0x80, 1, &[0x00], Read::Long);
    refused(0xFF, 9, &[], Read::Cut);
    refused(0x80, 9, &[0x00], Read::Long);
    refused(0xFF, 9, &[0x00], Read::Long);
    refused(0xFF, 9, &[0x02], Read::Large);
    refused(0x80, 9, &[0x80], Read::Large);
    refused(0x80, 9, &[0x80, 0x00], Read::Large);
    refused(0xFF, 10, &[], Read::Large);
    refused(0xFF, 11, &[], Read::Large);
    // A tenth byte above 1, its top bit counted, is too large whatever follows.
    for tenth in [0x02, 0x7F, 0x80, 0x81, 0xFF] {
        for after in [&[][..], &[0x00], &[0x01], &[0x80, 0x00]] {
            refused(0x80, 9, &[&[tenth], after].concat(), Read::Large);
        }
    }
    tally.same("place at the end", varint::read(&[0x00], 1), Read::Cut);
    tally.same("place past the end", varint::read(&[0x00], 2), Read::Cut);
}

/// Each number comes back from its bytes, in the midst of others too; each
/// shorter part of them is cut; and each longer form of it is refused.
fn check_varint_round_trips(tally: &mut Tally) {
    for value in many_numbers() {
        let what = format!("varint of {value}");
        let bytes = varint::write(value);
        let n = bytes.len();
        tally.same(&what, varint::length(value), n);
        tally.same(
            &what,
            varint::read(&bytes, 0),
            Read::Value { value, next: n },
        );
        let amid = [&[0xFF; 3][..], &bytes, &[0xFF]].concat();
        tally.same(
            &what,
            varint::read(&amid, 3),
            Read::Value { value, next: 3 + n },
        );
        for cut in 0..n {
            tally.same(&what, varint::read(&bytes[..cut], 0), Read::Cut);
        }
        for longer in n + 1..=varint::LONGEST {
            let mut drawn_out = bytes.clone();
            drawn_out[n - 1] |= 0x80;
            drawn_out.resize(longer - 1, 0x80);
            drawn_out.push(0x00);
            tally.same(&what, varint::read(&drawn_out, 0), Read::Long);
        }
    }
}

/// The input for the codes falls apart into its records again, is not too
/// long, and leaves no kind of answer out.
fn check_corpus(tally: &mut Tally) {
    let records = corpus::code_records();
    let input: Vec<u8> = records.iter().flat_map(Record::bytes).collect();
    tally.same("codes input at most 60000", input.len() <= 60000, true);

    let mut parsed = Vec::new();
    let mut rest = &input[..];
    while let Some((record, after)) = Record::parse(rest) {
        parsed.push(record);
        rest = after;
    }
    tally.same("codes input read to its end", rest.len(), 0);
    tally.same("records of the codes input", parsed == records, true);

    let lines: Vec<String> = records.iter().map(Record::line).collect();
    for word in [
        "value", "cut", "long", "large", "bytes", "less", "equal", "greater", "le", "put", "id",
    ] {
        let found = lines
            .iter()
            .any(|line| line.split(' ').next() == Some(word));
        tally.same(&format!("an answer {word}"), found, true);
    }
}

/// A file or a batch of a corpus, and its name.
type Named = (String, Vec<u8>);

/// Each name has the right form and tells one item.
fn check_names(tally: &mut Tally, items: &[Named]) {
    let mut seen = BTreeSet::new();
    for (name, _) in items {
        let words = name.split('-').all(|word| {
            let letter = |c: char| c.is_ascii_lowercase() || c.is_ascii_digit();
            !word.is_empty() && word.chars().all(letter)
        });
        let good = words && name.len() <= 60;
        tally.same(&format!("form of the name {name}"), good, true);
        tally.same(&format!("only one {name}"), seen.insert(name), true);
    }
}

/// An input of framed items falls apart into them again.
fn check_framed(tally: &mut Tally, input: &[u8], items: &[Named]) {
    let mut rest = input;
    let mut take = |count: usize| {
        let (taken, after) = rest.split_at_checked(count).unwrap_or((rest, &[]));
        rest = after;
        taken
    };
    for (name, bytes) in items {
        let name_length = take(1).first().copied().unwrap_or_default();
        let found_name = take(usize::from(name_length));
        let length = u32::from_le_bytes(take(4).try_into().unwrap_or_default());
        let same = found_name == name.as_bytes() && take(length as usize) == *bytes;
        tally.same(&format!("input of {name}"), same, true);
    }
    tally.same("input read to its end", rest.len(), 0);
}

/// Both sides of every power of two, and a pseudo-random number of every size.
fn many_numbers() -> Vec<u64> {
    let mut random = Random::new(2);
    (0..64)
        .flat_map(|bit| {
            let power: u64 = 1 << bit;
            [
                power - 1,
                power,
                power + 1,
                u64::MAX - power,
                random.number() >> bit,
            ]
        })
        .collect()
}

#[cfg(test)]
mod tests {
    #[test]
    fn no_check_fails() {
        assert_eq!(super::all().failures, Vec::<String>::new());
    }
}
