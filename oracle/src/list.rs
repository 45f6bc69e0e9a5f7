//! The fixed list: rows and the Rust's answers to them, as text, which crates/replay runs without any Rust.
//! A row is listed if it is the first of all short inputs and rows of records that shows its mix of answers, line ends and window edges.

use crate::chunks::Chunks;
use crate::inputs;
use crate::original::{self, fault, Fault, Original};
use crate::runs::Run;
use crate::tally::Tally;
use seq_io::fastq::{self, Position, Record, RecordSet, RefRecord};
use std::collections::HashSet;
use std::fmt::Write as _;
use std::fs;

fn hex(bytes: &[u8]) -> String {
    bytes.iter().map(|b| format!("{b:02x}")).collect()
}

/// The bytes that `write_unchanged` writes: one more than there are from a record's start to its end.
fn unchanged(r: &RefRecord) -> Vec<u8> {
    let mut out = Vec::new();
    r.write_unchanged(&mut out).expect("a write to memory");
    out
}

/// A record with its places counted from its start.
struct Found {
    seq: usize,
    qual: usize,
    end: usize,
    fields: String,
}

impl Found {
    fn at(&self, start: usize) -> String {
        format!("record {start} {} {} {} {}", start + self.seq, start + self.qual, start + self.end, self.fields)
    }
}

fn record(r: &RefRecord) -> Found {
    let head = r.head().as_ptr() as usize;
    let behind = |part: &[u8]| 1 + (part.as_ptr() as usize - head);
    let desc = r.desc_bytes().map_or(String::new(), |d| format!(" desc {}", hex(d)));
    Found {
        seq: behind(r.seq()),
        qual: behind(r.qual()),
        end: unchanged(r).len() - 1,
        fields: format!("head {} seq {} qual {} id {}{desc}", hex(r.head()), hex(r.seq()), hex(r.qual()), hex(r.id_bytes())),
    }
}

fn written(r: &RefRecord) -> String {
    let (mut to, mut parts) = (Vec::new(), Vec::new());
    fastq::write_to(&mut to, r.head(), r.seq(), r.qual()).expect("a write to memory");
    fastq::write_parts(&mut parts, r.id_bytes(), r.desc_bytes(), r.seq(), r.qual()).expect("a write to memory");
    format!("to {}\nparts {}\nunchanged {}\n", hex(&to), hex(&parts), hex(&unchanged(r)))
}

/// Window limit has no values in the Rust; they are its position.
fn failed(f: &Fault, at: (u64, u64)) -> String {
    let id = |id: &Option<String>| id.as_ref().map_or(" no id".to_string(), |s| format!(" id {}", hex(s.as_bytes())));
    match f {
        Fault::WindowLimit => format!("limit {} {}", at.0, at.1),
        Fault::InvalidStart(x, line) => format!("start {x} {line}"),
        Fault::InvalidSeparator(x, line, i) => format!("separator {x} {line}{}", id(i)),
        Fault::UnequalLengths(m, n, line, i) => format!("lengths {m} {n} {line}{}", id(i)),
        Fault::UnexpectedEnd(line, i) => format!("unexpected {line}{}", id(i)),
    }
}

/// The answers of `next` up to the closing one.
fn answers(o: &mut Original, writers: bool) -> String {
    let mut text = String::new();
    loop {
        let answer = match o.next() {
            None => None,
            Some(Ok(r)) => Some(Ok((record(&r), if writers { written(&r) } else { String::new() }))),
            Some(Err(e)) => Some(Err(fault(e))),
        };
        let (line, byte) = original::position(o);
        let told = match &answer {
            None => "end".to_string(),
            Some(Ok((r, _))) => r.at(byte as usize),
            Some(Err(f)) => failed(f, (line, byte)),
        };
        writeln!(text, "{told} at {line} {byte}").expect("a write to memory");
        match answer {
            Some(Ok((_, more))) => text.push_str(&more),
            _ => return text,
        }
    }
}

/// The answers to sets of at most n records, with all of the input in the window.
fn sets(o: &mut Original, n: usize) -> String {
    let mut text = String::new();
    loop {
        let from = original::position(o).1 as usize;
        let mut set = RecordSet::default();
        let answer = o.read_record_set_exact(&mut set, Some(n)).map(|r| r.map_err(fault));
        let (line, byte) = original::position(o);
        match answer {
            Some(Ok(())) => {
                let first = set.into_iter().next().map_or(0, |r| r.head().as_ptr() as usize);
                for r in &set {
                    let start = from + (r.head().as_ptr() as usize - first);
                    writeln!(text, "{}", record(&r).at(start)).expect("a write to memory");
                }
                writeln!(text, "set of {} at {line} {byte}", set.len()).expect("a write to memory");
            }
            None => {
                writeln!(text, "end at {line} {byte}").expect("a write to memory");
                return text;
            }
            Some(Err(f)) => {
                writeln!(text, "{} at {line} {byte}", failed(&f, (line, byte))).expect("a write to memory");
                return text;
            }
        }
    }
}

/// Where a size stands to another.
fn edge(size: usize, of: usize) -> char {
    match size as i64 - of as i64 {
        -1 => '-',
        0 => '=',
        1 => '+',
        d if d < 0 => '<',
        _ => '>',
    }
}

#[derive(Default)]
struct List {
    rows: String,
    answers: String,
    count: usize,
    told: usize,
    seen: HashSet<String>,
}

impl List {
    /// A row is listed if it is the first of its kind: the words of its answers, line ends and, by `next`, the window's edges.
    fn add(&mut self, kind: char, input: &[u8], window: usize, chunk: usize, a: u64, b: u64, answers: String) {
        let words: Vec<&str> = answers.lines().filter_map(|l| l.split(' ').next()).filter(|w| !["to", "parts", "unchanged"].contains(w)).collect();
        let first = input.iter().enumerate().filter(|(_, b)| **b == b'\n').map(|(i, _)| i + 1).nth(3).unwrap_or(input.len());
        let mut sign = format!("{kind} {} {}", words.join(" "), input.contains(&b'\r'));
        if kind == 'n' {
            let edges = [edge(window, input.len()), edge(window, first)];
            write!(sign, " {edges:?} {} {}", input.ends_with(b"\n"), answers.contains("no id")).expect("a write to memory");
        }
        if !self.seen.insert(sign) {
            return;
        }
        self.count += 1;
        self.told += words.len();
        writeln!(self.rows, "{kind} {window} {chunk} {a} {b} {}", hex(input)).expect("a write to memory");
        write!(self.answers, "row {}\n{answers}", self.count).expect("a write to memory");
    }

    fn consider(&mut self, input: &[u8], window: usize, number: usize) {
        if input.len() > 48 {
            return;
        }
        let chunk = [1, 2, 5, window, window + 1][number % 5];
        let open = || original::open(input, window, Chunks::Whole);
        self.add('n', input, window, chunk, 0, 0, answers(&mut open(), true));
        let mut o = open();
        let before = answers(&mut o, false);
        let places = [(1, 0), (5, input.len() as u64 / 2), (9, input.len() as u64 + 1)];
        let (line, byte) = places[number % 3];
        o.seek(&Position::new(line, byte)).expect("a seek in memory");
        let after = format!("{before}seek at {line} {byte}\n{}", answers(&mut o, false));
        self.add('k', input, window, chunk, line, byte, after);
        let wanted = 1 + number % 4;
        let run = Run { input, window: input.len() + 3, number: 0, most: 1 };
        let mut t = Tally::default();
        run.sets(Some(wanted), true, &mut t);
        if t.clean() {
            let mut o = original::open(input, input.len() + 3, Chunks::Whole);
            self.add('s', input, input.len() + 3, input.len() + 3, wanted as u64, 0, sets(&mut o, wanted));
        }
    }
}

/// Writes crates/replay/stdin and stdout.
pub fn write() -> std::io::Result<()> {
    let mut list = List::default();
    let mut number = 0;
    let mut every = |input: &[u8]| {
        for window in 3..=input.len() + 2 {
            number += 1;
            list.consider(input, window, number);
        }
    };
    for n in 1..=4 {
        inputs::every(n, &mut every);
    }
    inputs::rows(2, &mut every);
    let folder = concat!(env!("CARGO_MANIFEST_DIR"), "/../crates/replay/");
    fs::write(format!("{folder}stdin"), &list.rows)?;
    fs::write(format!("{folder}stdout"), &list.answers)?;
    println!("{} rows with {} answers, {} and {} bytes", list.count, list.told, list.rows.len(), list.answers.len());
    Ok(())
}
