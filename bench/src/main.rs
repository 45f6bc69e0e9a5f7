//! Counts the records of an input in memory, by the proved library and by the Rust it was ported from, round robin in one process:
//! `bench [MiB [rounds]]`; `bench --write [MiB]` writes the input to standard output instead. The figures are ratios of times in one round; docs/SPEED.md has method and figures.

use seq_io::fastq::Reader;
use std::io::Write;
use std::time::Instant;

const WINDOW: usize = 65_536;

extern "C" {
    fn fq_count(input: *const u8, n: usize, window: *mut u8, w: usize, chunk: usize) -> u64;
}

/// Records of 150 bases, with ids that count up, until so many bytes are reached.
fn records(bytes: usize) -> Vec<u8> {
    let mut out = Vec::with_capacity(bytes + 400);
    let mut seed = 1u64;
    let mut n = 0u64;
    while out.len() < bytes {
        out.extend_from_slice(format!("@read{n} lane 1\n").as_bytes());
        for _ in 0..150 {
            seed = seed.wrapping_mul(6364136223846793005).wrapping_add(1442695040888963407);
            out.push(b"ACGT"[(seed >> 62) as usize]);
        }
        out.extend_from_slice(b"\n+\n");
        for _ in 0..150 {
            seed = seed.wrapping_mul(6364136223846793005).wrapping_add(1442695040888963407);
            out.push(33 + ((seed >> 58) as u8 % 41));
        }
        out.push(b'\n');
        n += 1;
    }
    out
}

fn proved(input: &[u8], window: &mut [u8]) -> u64 {
    // The slices are valid for their lengths and do not overlap.
    unsafe { fq_count(input.as_ptr(), input.len(), window.as_mut_ptr(), window.len(), WINDOW) }
}

fn original(input: &[u8]) -> u64 {
    let mut reader = Reader::new(input);
    let mut n = 0;
    while let Some(record) = reader.next() {
        record.expect("the records are good");
        n += 1;
    }
    n
}

/// How long a count takes, in seconds, and what it counts.
fn timed(count: impl FnOnce() -> u64) -> (f64, u64) {
    let start = Instant::now();
    let n = count();
    (start.elapsed().as_secs_f64(), n)
}

fn main() {
    let number = |i: usize, usual: usize| {
        std::env::args().nth(i).map_or(usual, |s| s.parse().expect("bench [MiB [rounds]], both numbers"))
    };
    if std::env::args().nth(1).as_deref() == Some("--write") {
        let input = records(number(2, 400) << 20);
        std::io::stdout().write_all(&input).expect("standard output takes the records");
        return;
    }
    let mib = number(1, 400);
    let rounds = number(2, 15);
    let input = records(mib << 20);
    let mut window = vec![0u8; WINDOW];
    println!("{} bytes of 150-base records in memory, window and chunks of {WINDOW} bytes, {rounds} rounds", input.len());
    let mut ratios = Vec::new();
    let mut best = (f64::MAX, f64::MAX);
    let mut n = 0;
    for _ in 0..rounds {
        let (ours, a) = timed(|| proved(&input, &mut window));
        let (theirs, b) = timed(|| original(&input));
        assert_eq!(a, b, "the counts differ");
        n = a;
        ratios.push(ours / theirs);
        best = (best.0.min(ours), best.1.min(theirs));
    }
    ratios.sort_by(f64::total_cmp);
    println!("{n} records; the same count by both");
    println!("best time a record: proved {:.1} ns, Rust {:.1} ns", best.0 * 1e9 / n as f64, best.1 * 1e9 / n as f64);
    println!("proved / Rust, of one round: best {:.2}, median {:.2}, worst {:.2}", ratios[0], ratios[rounds / 2], ratios[rounds - 1]);
}
