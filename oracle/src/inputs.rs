//! Inputs: all short ones, records put together, and damaged ones.

use crate::random::Random;

/// What the short inputs are made of.
pub const ALPHABET: [u8; 6] = [b'@', b'+', b'\n', b'\r', b' ', b'A'];

/// Calls f on every input of just n bytes over the alphabet.
pub fn every(n: usize, mut f: impl FnMut(&[u8])) {
    let mut digits = vec![0; n];
    let mut input = vec![ALPHABET[0]; n];
    loop {
        f(&input);
        let mut i = 0;
        while i < n && digits[i] == ALPHABET.len() - 1 {
            digits[i] = 0;
            input[i] = ALPHABET[0];
            i += 1;
        }
        if i == n {
            return;
        }
        digits[i] += 1;
        input[i] = ALPHABET[digits[i]];
    }
}

/// Records, good and bad, with line ends of each kind.
pub const RECORDS: [&[u8]; 17] = [
    b"@\n\n+\n\n",
    b"@a\nAC\n+\nII\n",
    b"@a b\nA\n+\nI\n",
    b"@a \nA\n+a\nI\n",
    b"@ b\nA\n+\nI\n",
    b"@a\r\nAC\r\n+\r\nII\r\n",
    b"@\r\n\r\n+\r\n\r\n",
    b"@a\nA\r\n+\nII\n",
    b"@a\nAC\n+\nI\r\n",
    b"xa\nA\n+\nI\n",
    b"@a c\nA\n-\nI\n",
    b"@\nA\n-\nI\n",
    b"@a\nAC\n+\nI\n",
    b"@a\nAC\n+\nI\r\n\r\n",
    b"@\nA\n+\n\n",
    b"\n\n\n\n",
    b"@a\nA\n\nI\n",
];

/// What may stand behind records.
pub const TAILS: [&[u8]; 15] = [
    b"", b"\n", b"\n\n", b"\n\n\n", b"\r\n", b"\r\n\r\n", b"\r", b"\r\r", b"x", b"@", b"@a", b"@a\n", b"@a\nA", b"@a\nA\n+\nI", b"@\n\n+\n",
];

/// Calls f on every row of at most n records with every tail, and on the same without its last byte.
pub fn rows(n: usize, mut f: impl FnMut(&[u8])) {
    let mut rows: Vec<Vec<u8>> = vec![Vec::new()];
    for _ in 0..=n {
        for row in &rows {
            for tail in TAILS {
                let mut input = row.clone();
                input.extend_from_slice(tail);
                f(&input);
                if tail.is_empty() && input.pop().is_some() {
                    f(&input);
                }
            }
        }
        rows = rows.iter().flat_map(|row| RECORDS.iter().map(|r| [row.as_slice(), r].concat())).collect();
    }
}

fn letters(random: &mut Random, n: usize) -> Vec<u8> {
    (0..n).map(|_| random.one_of(b"ACGTN@+ I")).collect()
}

/// A run of records of up to `most` letters a line, with one kind of line end or another; some have one of them damaged.
pub fn random(random: &mut Random, most: usize) -> Vec<u8> {
    let mut input = Vec::new();
    let crlf = random.below(3);
    for _ in 0..random.below(8) {
        let n = random.below(most + 1);
        let m = random.below(9);
        let end: &[u8] = if crlf == 0 || (crlf == 1 && random.below(2) == 0) { b"\r\n" } else { b"\n" };
        let plus = random.one_of(&[b"+".as_slice(), b"+a", b"+"]);
        for (mark, line) in [(b"@".as_slice(), letters(random, m)), (b"", letters(random, n)), (plus, Vec::new()), (b"", letters(random, n))] {
            input.extend_from_slice(mark);
            input.extend(line.iter().filter(|b| mark != b"" || **b != b'\n'));
            input.extend_from_slice(end);
        }
    }
    if random.below(3) == 0 {
        input.pop();
    }
    if random.below(4) == 0 {
        let tail = random.one_of(&TAILS);
        input.extend_from_slice(tail);
    }
    for _ in 0..random.below(4) {
        damage(random, &mut input);
    }
    input
}

/// One byte changed, put in, or taken out, or the end cut off.
fn damage(random: &mut Random, input: &mut Vec<u8>) {
    if input.is_empty() {
        return;
    }
    let at = random.below(input.len());
    let byte = random.one_of(b"@+\n\n\r \x00\x80\xff\xc3A");
    match random.below(8) {
        0 => input.truncate(at),
        1 | 2 => {
            input.remove(at);
        }
        3 | 4 => input.insert(at, byte),
        _ => input[at] = byte,
    }
}

/// Windows around each boundary of an input: where a run of four lines ends, where any line ends, and its end.
pub fn windows(random: &mut Random, input: &[u8]) -> Vec<usize> {
    let mut sizes = vec![3, 4, input.len(), 3 + random.below(input.len() + 3)];
    let ends: Vec<usize> = input.iter().enumerate().filter(|(_, b)| **b == b'\n').map(|(i, _)| i + 1).collect();
    let mut start = 0;
    for four in ends.chunks(4) {
        let size = four[four.len() - 1] - start;
        start = four[four.len() - 1];
        sizes.push(size);
        sizes.push(start);
    }
    sizes.push(input.len() - start);
    let mut around: Vec<usize> = sizes.iter().flat_map(|n| [n.saturating_sub(1), *n, n + 1]).filter(|n| 3 <= *n).collect();
    around.sort_unstable();
    around.dedup();
    around
}
