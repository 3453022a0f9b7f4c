//! XXH3-64 with seed 0 and the default secret, after doc/xxhash_spec.md of
//! xxHash. With seed 0 every seed term of that document vanishes, so none is
//! written here. Sums and products are modulo 2^64 unless said otherwise.

use crate::numbers::read_le;

const PRIME32_1: u64 = 0x9E3779B1;
const PRIME32_2: u64 = 0x85EBCA77;
const PRIME32_3: u64 = 0xC2B2AE3D;
const PRIME64_1: u64 = 0x9E3779B185EBCA87;
const PRIME64_2: u64 = 0xC2B2AE3D27D4EB4F;
const PRIME64_3: u64 = 0x165667B19E3779F9;
const PRIME64_4: u64 = 0x85EBCA77C2B2AE63;
const PRIME64_5: u64 = 0x27D4EB2F165667C5;
const PRIME_MX1: u64 = 0x165667919E3779F9;
const PRIME_MX2: u64 = 0x9FB21C651E98DF25;

const SECRET_LENGTH: usize = 192;
/// The bytes of `XXH3_kSecret` in xxhash.h of xxHash 0.8.1.
const DEFAULT_SECRET: [u8; SECRET_LENGTH] = [
    0xb8, 0xfe, 0x6c, 0x39, 0x23, 0xa4, 0x4b, 0xbe, 0x7c, 0x01, 0x81, 0x2c, 0xf7, 0x21, 0xad, 0x1c,
    0xde, 0xd4, 0x6d, 0xe9, 0x83, 0x90, 0x97, 0xdb, 0x72, 0x40, 0xa4, 0xa4, 0xb7, 0xb3, 0x67, 0x1f,
    0xcb, 0x79, 0xe6, 0x4e, 0xcc, 0xc0, 0xe5, 0x78, 0x82, 0x5a, 0xd0, 0x7d, 0xcc, 0xff, 0x72, 0x21,
    0xb8, 0x08, 0x46, 0x74, 0xf7, 0x43, 0x24, 0x8e, 0xe0, 0x35, 0x90, 0xe6, 0x81, 0x3a, 0x26, 0x4c,
    0x3c, 0x28, 0x52, 0xbb, 0x91, 0xc3, 0x00, 0xcb, 0x88, 0xd0, 0x65, 0x8b, 0x1b, 0x53, 0x2e, 0xa3,
    0x71, 0x64, 0x48, 0x97, 0xa2, 0x0d, 0xf9, 0x4e, 0x38, 0x19, 0xef, 0x46, 0xa9, 0xde, 0xac, 0xd8,
    0xa8, 0xfa, 0x76, 0x3f, 0xe3, 0x9c, 0x34, 0x3f, 0xf9, 0xdc, 0xbb, 0xc7, 0xc7, 0x0b, 0x4f, 0x1d,
    0x8a, 0x51, 0xe0, 0x4b, 0xcd, 0xb4, 0x59, 0x31, 0xc8, 0x9f, 0x7e, 0xc9, 0xd9, 0x78, 0x73, 0x64,
    0xea, 0xc5, 0xac, 0x83, 0x34, 0xd3, 0xeb, 0xc3, 0xc5, 0x81, 0xa0, 0xff, 0xfa, 0x13, 0x63, 0xeb,
    0x17, 0x0d, 0xdd, 0x51, 0xb7, 0xf0, 0xda, 0x49, 0xd3, 0x16, 0x55, 0x26, 0x29, 0xd4, 0x68, 0x9e,
    0x2b, 0x16, 0xbe, 0x58, 0x7d, 0x47, 0xa1, 0xfc, 0x8f, 0xf8, 0xb8, 0xd1, 0x7a, 0xd0, 0x31, 0xce,
    0x45, 0xcb, 0x3a, 0x8f, 0x95, 0x16, 0x04, 0x28, 0xaf, 0xd7, 0xfb, 0xca, 0xbb, 0x4b, 0x40, 0x7e,
];

pub const STRIPE: usize = 64;
/// The secret moves on by 8 bytes with each stripe and starts again with each
/// block, so a block ends where the secret has no full stripe left.
const BLOCK: usize = (SECRET_LENGTH - STRIPE) / 8 * STRIPE;
/// Inputs of more bytes go through the accumulators.
pub const MEDIUM: usize = 240;

pub fn xxh3_64(input: &[u8]) -> u64 {
    match input.len() {
        0 => avalanche_xxh64(secret64(56) ^ secret64(64)),
        1..=3 => small_1_to_3(input),
        4..=8 => small_4_to_8(input),
        9..=16 => small_9_to_16(input),
        17..=128 => medium_17_to_128(input),
        129..=MEDIUM => medium_129_to_240(input),
        _ => large(input),
    }
}

fn word32(bytes: &[u8], at: usize) -> u64 {
    read_le(&bytes[at..at + 4])
}

fn word64(bytes: &[u8], at: usize) -> u64 {
    read_le(&bytes[at..at + 8])
}

fn secret64(at: usize) -> u64 {
    word64(&DEFAULT_SECRET, at)
}

/// The lower half of the full 128-bit product xor its upper half.
fn folded_product(a: u64, b: u64) -> u64 {
    let product = u128::from(a) * u128::from(b);
    (product as u64) ^ ((product >> 64) as u64)
}

fn xorshift(x: u64, bits: u32) -> u64 {
    x ^ (x >> bits)
}

fn avalanche(x: u64) -> u64 {
    xorshift(xorshift(x, 37).wrapping_mul(PRIME_MX1), 32)
}

/// The final mix of the older XXH64, kept by XXH3 for inputs below 4 bytes.
fn avalanche_xxh64(x: u64) -> u64 {
    let x = xorshift(x, 33).wrapping_mul(PRIME64_2);
    let x = xorshift(x, 29).wrapping_mul(PRIME64_3);
    xorshift(x, 32)
}

fn small_1_to_3(input: &[u8]) -> u64 {
    let n = input.len();
    let byte = |at: usize| u64::from(input[at]);
    let combined = byte(n - 1) | (n as u64) << 8 | byte(0) << 16 | byte(n >> 1) << 24;
    avalanche_xxh64(word32(&DEFAULT_SECRET, 0) ^ word32(&DEFAULT_SECRET, 4) ^ combined)
}

fn small_4_to_8(input: &[u8]) -> u64 {
    let n = input.len();
    let combined = word32(input, n - 4) | word32(input, 0) << 32;
    let value = secret64(8) ^ secret64(16) ^ combined;
    let value = value ^ value.rotate_left(49) ^ value.rotate_left(24);
    let value = value.wrapping_mul(PRIME_MX2);
    let value = value ^ (value >> 35).wrapping_add(n as u64);
    xorshift(value.wrapping_mul(PRIME_MX2), 28)
}

fn small_9_to_16(input: &[u8]) -> u64 {
    let n = input.len();
    let low = secret64(24) ^ secret64(32) ^ word64(input, 0);
    let high = secret64(40) ^ secret64(48) ^ word64(input, n - 8);
    let value = (n as u64)
        .wrapping_add(low.swap_bytes())
        .wrapping_add(high)
        .wrapping_add(folded_product(low, high));
    avalanche(value)
}

/// Mixes 16 bytes of the input with 16 of the secret.
fn mix_step(input: &[u8], at: usize, secret_offset: usize) -> u64 {
    folded_product(
        word64(input, at) ^ secret64(secret_offset),
        word64(input, at + 8) ^ secret64(secret_offset + 8),
    )
}

fn medium_17_to_128(input: &[u8]) -> u64 {
    let n = input.len();
    let mut acc = (n as u64).wrapping_mul(PRIME64_1);
    let rounds = ((n - 1) >> 5) + 1;
    for i in (0..rounds).rev() {
        acc = acc.wrapping_add(mix_step(input, 16 * i, 32 * i));
        acc = acc.wrapping_add(mix_step(input, n - 16 * i - 16, 32 * i + 16));
    }
    avalanche(acc)
}

fn medium_129_to_240(input: &[u8]) -> u64 {
    let n = input.len();
    let mut acc = (n as u64).wrapping_mul(PRIME64_1);
    for i in 0..8 {
        acc = acc.wrapping_add(mix_step(input, 16 * i, 16 * i));
    }
    acc = avalanche(acc);
    for i in 8..n / 16 {
        acc = acc.wrapping_add(mix_step(input, 16 * i, 16 * (i - 8) + 3));
    }
    acc = acc.wrapping_add(mix_step(input, n - 16, 136 - 17));
    avalanche(acc)
}

pub type Accumulators = [u64; 8];

/// What they are before the first stripe.
pub const BEGINNING: Accumulators = [
    PRIME32_3, PRIME64_1, PRIME64_2, PRIME64_3, PRIME64_4, PRIME32_2, PRIME64_5, PRIME32_1,
];

pub fn accumulate(acc: &mut Accumulators, stripe: &[u8], secret_offset: usize) {
    for i in 0..8 {
        let data = word64(stripe, 8 * i);
        let value = data ^ secret64(secret_offset + 8 * i);
        let product = (value & 0xFFFF_FFFF) * (value >> 32);
        acc[i ^ 1] = acc[i ^ 1].wrapping_add(data);
        acc[i] = acc[i].wrapping_add(product);
    }
}

pub fn scramble(acc: &mut Accumulators) {
    for (i, a) in acc.iter_mut().enumerate() {
        let mixed = xorshift(*a, 47) ^ secret64(SECRET_LENGTH - STRIPE + 8 * i);
        *a = mixed.wrapping_mul(PRIME32_1);
    }
}

fn final_merge(acc: &Accumulators, init: u64, secret_offset: usize) -> u64 {
    let sum = (0..8).step_by(2).fold(init, |sum, i| {
        let at = secret_offset + 8 * i;
        let first = acc[i] ^ secret64(at);
        let second = acc[i + 1] ^ secret64(at + 8);
        sum.wrapping_add(folded_product(first, second))
    });
    avalanche(sum)
}

fn large(input: &[u8]) -> u64 {
    let n = input.len();
    let mut acc = BEGINNING;
    // The last byte is kept back: an input that ends with a block or a stripe
    // still has that one as its last, which is treated on its own.
    let mut blocks = input[..n - 1].chunks_exact(BLOCK);
    for block in &mut blocks {
        for (i, stripe) in block.chunks_exact(STRIPE).enumerate() {
            accumulate(&mut acc, stripe, 8 * i);
        }
        scramble(&mut acc);
    }
    for (i, stripe) in blocks.remainder().chunks_exact(STRIPE).enumerate() {
        accumulate(&mut acc, stripe, 8 * i);
    }
    finish(acc, &input[n - STRIPE..], n as u64)
}

/// The sum of a large input: its last 64 bytes and its length go in at the end,
/// whichever stripes they belong to.
pub fn finish(mut acc: Accumulators, last: &[u8], length: u64) -> u64 {
    accumulate(&mut acc, last, SECRET_LENGTH - 71);
    final_merge(&acc, length.wrapping_mul(PRIME64_1), 11)
}
