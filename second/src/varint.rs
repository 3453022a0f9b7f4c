//! Varints: seven bits per byte, lowest first, the top bit meaning that more
//! bytes come. A number below 2^64 has one valid form, its shortest.

/// The bytes of the longest varint: 2^63 and above take ten.
pub const LONGEST: usize = 10;

#[derive(Clone, Copy, Debug, PartialEq, Eq)]
pub enum Read {
    /// A number, and the place after its last byte.
    Value { value: u64, next: usize },
    /// The bytes end before a byte that ends the varint.
    Cut,
    /// Not the shortest form: the last byte adds nothing to those before it.
    Long,
    /// 2^64 or more. Nine bytes carry 63 bits, so a tenth byte above 1 settles
    /// this whatever follows it.
    Large,
}

/// Reads the varint that begins at `place`.
pub fn read(bytes: &[u8], place: usize) -> Read {
    let rest = bytes.get(place..).unwrap_or_default();
    let continued = rest
        .iter()
        .take(LONGEST - 1)
        .take_while(|&&b| b >= 128)
        .count();
    match rest.get(continued) {
        None => Read::Cut,
        Some(2..) if continued == LONGEST - 1 => Read::Large,
        Some(0) if continued > 0 => Read::Long,
        Some(_) => Read::Value {
            value: sum_of_sevens(&rest[..=continued]),
            next: place + continued + 1,
        },
    }
}

fn sum_of_sevens(bytes: &[u8]) -> u64 {
    let sum = bytes
        .iter()
        .rev()
        .fold(0u128, |n, &b| n * 128 + u128::from(b % 128));
    u64::try_from(sum).expect("a tenth byte of at most 1 keeps the sum below 2^64")
}

/// The length of the shortest form: the least n of 1 and above with x < 2^(7n).
pub fn length(x: u64) -> usize {
    (1..=LONGEST)
        .find(|n| u128::from(x) < 1 << (7 * n))
        .expect("ten bytes carry 70 bits")
}

pub fn write(x: u64) -> Vec<u8> {
    let n = length(x);
    (0..n)
        .map(|i| {
            let seven = (x >> (7 * i)) as u8 % 128;
            if i + 1 < n {
                seven + 128
            } else {
                seven
            }
        })
        .collect()
}
