//! The byte family: one fixed endless run of bytes whose beginnings are the
//! inputs of the checksum vectors.

/// x starts at 1; each byte first sets x to (x * 1103515245 + 12345) mod 2^31
/// and then is (x / 65536) mod 256.
pub fn bytes(count: usize) -> Vec<u8> {
    let mut x: u64 = 1;
    (0..count)
        .map(|_| {
            x = (x * 1103515245 + 12345) % (1 << 31);
            (x / 65536 % 256) as u8
        })
        .collect()
}
