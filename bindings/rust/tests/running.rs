//! The running sum: it is that of the whole, however the bytes are cut.

use edge_sst::{sum, Refusal, RunningSum};

/// The first bytes of the family that the corpora of sums are of.
fn family(count: usize) -> Vec<u8> {
    let mut x: u64 = 1;
    let mut next = || {
        x = (x * 1103515245 + 12345) % (1 << 31);
        (x / 65536) as u8
    };
    (0..count).map(|_| next()).collect()
}

fn after(chunks: &[&[u8]]) -> RunningSum {
    let mut running = RunningSum::new();
    for chunk in chunks {
        running.update(chunk).expect("few bytes");
    }
    running
}

#[test]
fn no_chunk_is_the_sum_of_no_bytes() {
    assert_eq!(RunningSum::new().sum(), 0x2d06800538d394c2);
    assert_eq!(RunningSum::default(), RunningSum::new());
    assert_eq!(after(&[&[], &[]]), RunningSum::new());
}

#[test]
fn the_total_counts_all_bytes() {
    let bytes = family(1300);
    let mut running = RunningSum::new();
    assert_eq!(running.total(), 0);
    let mut fed = 0;
    for n in [0, 1, 255, 256, 257, 531] {
        running.update(&bytes[fed..fed + n]).expect("few bytes");
        fed += n;
        assert_eq!(running.total(), fed as u64);
    }
    assert_eq!((fed, running.sum()), (1300, sum(&bytes)));
}

#[test]
fn every_cut_gives_the_sum_of_the_whole() {
    let bytes = family(1300);
    for n in (0..=70).chain(236..=260).chain(509..=515).chain([1300]) {
        let (whole, expected) = (after(&[&bytes[..n]]), sum(&bytes[..n]));
        for cut in 0..=n {
            let running = after(&[&bytes[..cut], &[], &bytes[cut..n]]);
            assert_eq!(running.sum(), expected, "{n} bytes cut after {cut}");
            assert_eq!(running, whole, "{n} bytes cut after {cut}");
        }
    }
}

/// The corpus of the second program: one by one, and in chunks of one size.
#[test]
fn chunks_have_the_sums_of_the_second_program() {
    let corpus = concat!(
        env!("CARGO_MANIFEST_DIR"),
        "/../../crates/test_running/stdout"
    );
    let corpus = std::fs::read_to_string(corpus).expect("the corpus");
    let bytes = family(8269);
    let mut lines = 0;
    for line in corpus.lines() {
        let words: Vec<&str> = line.split(' ').collect();
        let size: usize = words[1].parse().expect("a size");
        let (end, asked) = match words[0] {
            "bytes" => in_chunks(&bytes[..size], 1),
            "chunks" => in_chunks(&bytes, size),
            _ => continue,
        };
        let sums = [end, asked].map(|sum| format!("{sum:016x}"));
        assert_eq!(words[2..], sums[..words.len() - 2], "{line}");
        lines += 1;
    }
    assert_eq!(lines, 1201);
}

/// The sum in the end, and the sums after each chunk xor'd.
fn in_chunks(bytes: &[u8], size: usize) -> (u64, u64) {
    let mut running = RunningSum::new();
    let mut asked = 0;
    for chunk in bytes.chunks(size) {
        running.update(&[]).expect("an empty chunk");
        running.update(chunk).expect("few bytes");
        asked ^= running.sum();
    }
    (running.sum(), asked)
}

#[test]
fn two_sums_side_by_side() {
    let bytes = family(5000);
    let (odd, even): (Vec<_>, Vec<_>) = (0..50).partition(|i| i % 2 == 1);
    let chunk = |i: &usize| &bytes[100 * i..100 * i + 100];
    let mut sums = [RunningSum::new(), RunningSum::new()];
    for i in 0..50 {
        sums[i % 2].update(chunk(&i)).expect("few bytes");
    }
    for (running, own) in sums.iter().zip([even, odd]) {
        let own: Vec<u8> = own.iter().flat_map(chunk).copied().collect();
        assert_eq!(running.sum(), sum(&own));
    }
}

#[test]
fn a_clone_goes_on_by_itself() {
    let bytes = family(1000);
    let first = after(&[&bytes[..700]]);
    let mut second = first.clone();
    second.update(&bytes[700..]).expect("few bytes");
    assert_eq!(first.sum(), sum(&bytes[..700]));
    assert_eq!(second.sum(), sum(&bytes));
}

/// 2^30 bytes are lawful, which are 1,024 times the first 2^20 of the family here;
/// their sum is that of xxHash 0.8.1.
#[test]
fn a_chunk_past_the_bound_is_refused_and_the_state_stays() {
    let bytes = family(1 << 20);
    let refused = Err(Refusal {
        number: 27,
        place: 0,
        beside: 0,
    });
    let mut running = RunningSum::new();
    for _ in 0..1023 {
        running.update(&bytes).expect("within the bound");
    }
    let (most, rest) = bytes.split_at(bytes.len() - 10);
    running.update(most).expect("within the bound");
    let before = running.clone();
    assert_eq!(running.update(&bytes[..11]), refused);
    assert_eq!(running.update(&bytes), refused);
    assert_eq!(running, before);
    assert_eq!(running.total(), (1 << 30) - 10);
    assert_eq!(running.update(rest), Ok(()));
    assert_eq!(running.total(), 1 << 30);
    assert_eq!(running.sum(), 0x0a9b028adbce3fc2);
    assert_eq!(running.update(&[1]), refused);
    assert_eq!(running.update(&[]), Ok(()));
    assert_eq!(running.sum(), 0x0a9b028adbce3fc2);
}
