//! XXH3-64, seed 0 and default secret, in plain Rust that is written to be fast: whole words are read, and stripes and lanes
//! have known lengths, so that the compiler writes their loops out and leaves the tests of bounds out. No `unsafe` but for the
//! slice that C lends, and no intrinsics.

const P32_1: u64 = 0x9E3779B1;
const P32_2: u64 = 0x85EBCA77;
const P32_3: u64 = 0xC2B2AE3D;
const P64_1: u64 = 0x9E3779B185EBCA87;
const P64_2: u64 = 0xC2B2AE3D27D4EB4F;
const P64_3: u64 = 0x165667B19E3779F9;
const P64_4: u64 = 0x85EBCA77C2B2AE63;
const P64_5: u64 = 0x27D4EB2F165667C5;
const MX1: u64 = 0x165667919E3779F9;
const MX2: u64 = 0x9FB21C651E98DF25;

const SECRET: [u8; 192] = *b"\
    \xb8\xfe\x6c\x39\x23\xa4\x4b\xbe\x7c\x01\x81\x2c\xf7\x21\xad\x1c\xde\xd4\x6d\xe9\x83\x90\x97\xdb\x72\x40\xa4\xa4\xb7\xb3\x67\x1f\
    \xcb\x79\xe6\x4e\xcc\xc0\xe5\x78\x82\x5a\xd0\x7d\xcc\xff\x72\x21\xb8\x08\x46\x74\xf7\x43\x24\x8e\xe0\x35\x90\xe6\x81\x3a\x26\x4c\
    \x3c\x28\x52\xbb\x91\xc3\x00\xcb\x88\xd0\x65\x8b\x1b\x53\x2e\xa3\x71\x64\x48\x97\xa2\x0d\xf9\x4e\x38\x19\xef\x46\xa9\xde\xac\xd8\
    \xa8\xfa\x76\x3f\xe3\x9c\x34\x3f\xf9\xdc\xbb\xc7\xc7\x0b\x4f\x1d\x8a\x51\xe0\x4b\xcd\xb4\x59\x31\xc8\x9f\x7e\xc9\xd9\x78\x73\x64\
    \xea\xc5\xac\x83\x34\xd3\xeb\xc3\xc5\x81\xa0\xff\xfa\x13\x63\xeb\x17\x0d\xdd\x51\xb7\xf0\xda\x49\xd3\x16\x55\x26\x29\xd4\x68\x9e\
    \x2b\x16\xbe\x58\x7d\x47\xa1\xfc\x8f\xf8\xb8\xd1\x7a\xd0\x31\xce\x45\xcb\x3a\x8f\x95\x16\x04\x28\xaf\xd7\xfb\xca\xbb\x4b\x40\x7e";

#[inline(always)]
fn le32(s: &[u8], at: usize) -> u64 {
    u64::from(u32::from_le_bytes(s[at..at + 4].try_into().unwrap()))
}

#[inline(always)]
fn le64(s: &[u8], at: usize) -> u64 {
    u64::from_le_bytes(s[at..at + 8].try_into().unwrap())
}

#[inline(always)]
fn key(at: usize) -> u64 {
    le64(&SECRET, at)
}

#[inline(always)]
fn fold(a: u64, b: u64) -> u64 {
    let p = u128::from(a) * u128::from(b);
    p as u64 ^ (p >> 64) as u64
}

#[inline(always)]
fn avalanche(x: u64) -> u64 {
    let y = (x ^ x >> 37).wrapping_mul(MX1);
    y ^ y >> 32
}

#[inline(always)]
fn avalanche64(x: u64) -> u64 {
    let y = (x ^ x >> 33).wrapping_mul(P64_2);
    let z = (y ^ y >> 29).wrapping_mul(P64_3);
    z ^ z >> 32
}

fn small(s: &[u8]) -> u64 {
    let n = s.len();
    if n > 8 {
        let a = le64(s, 0) ^ key(24) ^ key(32);
        let b = le64(s, n - 8) ^ key(40) ^ key(48);
        let sum = (n as u64).wrapping_add(a.swap_bytes()).wrapping_add(b);
        avalanche(sum.wrapping_add(fold(a, b)))
    } else if n > 3 {
        let x = (le32(s, n - 4) | le32(s, 0) << 32) ^ key(8) ^ key(16);
        let y = (x ^ x.rotate_left(49) ^ x.rotate_left(24)).wrapping_mul(MX2);
        let z = (y ^ (y >> 35).wrapping_add(n as u64)).wrapping_mul(MX2);
        z ^ z >> 28
    } else if n > 0 {
        let byte = |i: usize| u64::from(s[i]);
        let x = byte(n - 1) | (n as u64) << 8 | byte(0) << 16 | byte(n / 2) << 24;
        avalanche64(x ^ le32(&SECRET, 0) ^ le32(&SECRET, 4))
    } else {
        avalanche64(key(56) ^ key(64))
    }
}

#[inline(always)]
fn pair(s: &[u8], at: usize, k: usize) -> u64 {
    fold(le64(s, at) ^ key(k), le64(s, at + 8) ^ key(k + 8))
}

fn of_17_to_128(s: &[u8]) -> u64 {
    let n = s.len();
    let mut sum = (n as u64).wrapping_mul(P64_1);
    for i in (0..(n - 1) / 32 + 1).rev() {
        sum = sum.wrapping_add(pair(s, 16 * i, 32 * i));
        sum = sum.wrapping_add(pair(s, n - 16 * i - 16, 32 * i + 16));
    }
    avalanche(sum)
}

fn of_129_to_240(s: &[u8]) -> u64 {
    let n = s.len();
    let mut sum = (n as u64).wrapping_mul(P64_1);
    for i in 0..8 {
        sum = sum.wrapping_add(pair(s, 16 * i, 16 * i));
    }
    sum = avalanche(sum);
    for i in 8..n / 16 {
        sum = sum.wrapping_add(pair(s, 16 * i, 16 * i - 125));
    }
    avalanche(sum.wrapping_add(pair(s, n - 16, 119)))
}

type Lanes = [u64; 8];

const START: Lanes = [P32_3, P64_1, P64_2, P64_3, P64_4, P32_2, P64_5, P32_1];

#[inline(always)]
fn accumulate(a: Lanes, stripe: &[u8; 64], k: usize) -> Lanes {
    let secret: &[u8; 64] = SECRET[k..k + 64].try_into().unwrap();
    std::array::from_fn(|i| {
        let x = le64(stripe, 8 * i) ^ le64(secret, 8 * i);
        let beside = le64(stripe, 8 * (i ^ 1));
        a[i].wrapping_add(beside).wrapping_add((x & 0xFFFF_FFFF) * (x >> 32))
    })
}

#[inline(always)]
fn scramble(a: Lanes) -> Lanes {
    std::array::from_fn(|i| (a[i] ^ a[i] >> 47 ^ key(128 + 8 * i)).wrapping_mul(P32_1))
}

/// One loop over all stripes, with the scrambling in it: two loops, of blocks and of stripes, are slower, as the compiler then
/// works on two stripes side by side and shuffles their words.
fn large(s: &[u8]) -> u64 {
    let n = s.len();
    let mut a = START;
    for (i, stripe) in s[..n - 1].as_chunks::<64>().0.iter().enumerate() {
        a = accumulate(a, stripe, 8 * (i % 16));
        if i % 16 == 15 {
            a = scramble(a);
        }
    }
    a = accumulate(a, s[n - 64..].try_into().unwrap(), 121);
    let mut sum = (n as u64).wrapping_mul(P64_1);
    for i in 0..4 {
        let k = 11 + 16 * i;
        sum = sum.wrapping_add(fold(a[2 * i] ^ key(k), a[2 * i + 1] ^ key(k + 8)));
    }
    avalanche(sum)
}

/// # Safety
/// `p` points to `n` bytes.
#[no_mangle]
pub unsafe extern "C" fn rust_xxh3_64(p: *const u8, n: usize) -> u64 {
    let s = unsafe { std::slice::from_raw_parts(p, n) };
    match n {
        0..=16 => small(s),
        17..=128 => of_17_to_128(s),
        129..=240 => of_129_to_240(s),
        _ => large(s),
    }
}
