//! The entries of docs/DIFFERENCES.md: each input is run on both sides, and both must do what its entry says.

use crate::chunks::Chunks;
use crate::original::{self, fault, Fault, Original};
use crate::proved::{self, Proved};
use crate::step::told;
use seq_io::fastq::{Position, Reader, RecordSet};
use std::panic::{catch_unwind, AssertUnwindSafe};

const RECORD: &[u8] = b"@\n\n+\n\n";

fn rust(input: &[u8], window: usize) -> Original<'_> {
    original::open(input, window, Chunks::Whole)
}

/// The library's reader with all of the input in its window, as far as it goes in, and the end noted if `noted`.
fn ours(input: &[u8], window: usize, noted: bool) -> Proved<'_> {
    let Ok(mut p) = Proved::open(input, window, Chunks::Whole) else {
        panic!("open refused {window}");
    };
    p.fill();
    if noted {
        p.note_end();
    }
    p
}

/// What a call of the Rust answers: a set of so many records, an error, or None.
fn set(o: &mut Original, wanted: Option<usize>) -> Option<Result<usize, Fault>> {
    let mut set = RecordSet::default();
    let answer = match wanted {
        None => o.read_record_set(&mut set),
        Some(n) => o.read_record_set_exact(&mut set, Some(n)),
    };
    answer.map(|r| r.map(|()| set.len()).map_err(fault))
}

fn next(o: &mut Original) -> Option<Result<(), Fault>> {
    o.next().map(|r| r.map(|_| ()).map_err(fault))
}

fn same<T: PartialEq + std::fmt::Debug>(what: &str, is: T, said: T) -> Result<(), String> {
    if is == said {
        return Ok(());
    }
    Err(format!("{what}: {is:?}, and the entry says {said:?}"))
}

fn panics<T>(f: impl FnOnce() -> T) -> bool {
    catch_unwind(AssertUnwindSafe(f)).is_err()
}

fn entry_1() -> Result<(), String> {
    let mut o = rust(RECORD, 6);
    same("the Rust", set(&mut o, Some(2)), Some(Err(Fault::WindowLimit)))?;
    same("the Rust's position", original::position(&o), (5, 6))?;
    same("the Rust's following call", set(&mut o, Some(2)), None)?;
    let mut p = ours(RECORD, 6, false);
    let mut table = [9; 10];
    same("here", (p.set_exact(&mut table, 2), p.values[0]), (proved::DONE, 1))?;
    same("the table", table, [0, 2, 3, 5, 5, 9, 9, 9, 9, 9])?;
    let three = RECORD.repeat(3);
    let mut o = rust(&three, 12);
    same("the Rust's set of one", set(&mut o, Some(1)), Some(Ok(1)))?;
    same("the Rust's set of two", set(&mut o, Some(2)), Some(Err(Fault::WindowLimit)))
}

fn entry_2() -> Result<(), String> {
    let input = b"@\n\n+\n\nx";
    let end = Fault::UnexpectedEnd(5, None);
    same("the Rust", set(&mut rust(input, 8), Some(2)), Some(Err(end.clone())))?;
    let mut p = ours(input, 8, true);
    let mut table = [9; 10];
    same("here", (p.set_exact(&mut table, 2), p.values[0]), (proved::DONE, 1))?;
    let code = p.set_exact(&mut table, 2);
    same("here, then", told(&p, code), Some(end))?;
    let input = b"@\n\n+\n\n\n\n\n\n";
    let start = Fault::InvalidStart(10, 5);
    same("the Rust's read_record_set", set(&mut rust(input, 10), None), Some(Err(start.clone())))?;
    let mut p = ours(input, 10, false);
    same("here", (p.set(&mut table), p.values[0]), (proved::DONE, 1))?;
    let code = p.set(&mut table);
    same("here, then", told(&p, code), Some(start))
}

fn entry_3() -> Result<(), String> {
    same("the Rust", set(&mut rust(RECORD, 7), Some(2)), None)?;
    let mut p = ours(RECORD, 7, true);
    let mut table = [9; 10];
    same("here", (p.set_exact(&mut table, 2), p.values[0]), (proved::DONE, 1))?;
    same("here, then", p.set_exact(&mut table, 2), proved::END)?;
    same("the Rust without the last LF", set(&mut rust(&RECORD[..5], 7), Some(2)), Some(Ok(1)))
}

fn entry_4() -> Result<(), String> {
    let mut o = rust(&RECORD[..5], 6);
    same("the Rust", set(&mut o, None), Some(Ok(1)))?;
    same("the Rust's position", original::position(&o), (5, 6))?;
    let mut p = ours(&RECORD[..5], 6, true);
    let mut table = [9; 10];
    same("here", (p.set(&mut table), p.values[0]), (proved::DONE, 1))?;
    same("the position", p.position(), (5, 5))?;
    same("here, then", p.next(), proved::END)?;
    same("the position after End", p.position(), (5, 5))
}

fn entry_5() -> Result<(), String> {
    let mut o = rust(b"aaa", 3);
    same("the Rust", next(&mut o), Some(Err(Fault::WindowLimit)))?;
    same("the Rust, then", next(&mut o), Some(Err(Fault::UnexpectedEnd(5, None))))?;
    same("the Rust, then", next(&mut o), None)?;
    let mut o = rust(b"aaa", 3);
    for _ in 0..3 {
        same("the Rust's set", set(&mut o, None), Some(Err(Fault::WindowLimit)))?;
    }
    let mut p = ours(b"aaa", 3, false);
    same("here", p.next(), proved::WINDOW_LIMIT)?;
    same("here, then", p.next(), proved::END)?;
    same("the position", p.position(), (1, 0))
}

fn entry_6() -> Result<(), String> {
    let mut o = rust(b"\naaa", 3);
    same("the Rust", next(&mut o), Some(Err(Fault::WindowLimit)))?;
    same("the Rust, then", next(&mut o), Some(Err(Fault::WindowLimit)))?;
    same("the third call panics", panics(|| next(&mut o)), true)?;
    let mut p = ours(b"\naaa", 3, false);
    same("here", [p.next(), p.next(), p.next()], [proved::WINDOW_LIMIT, proved::END, proved::END])
}

fn entry_7() -> Result<(), String> {
    let input = b"@\n\n+\n\n@\n\n+\n";
    let mut o = rust(input, 12);
    same("the Rust", set(&mut o, None), Some(Ok(1)))?;
    same("the Rust, then", set(&mut o, None), Some(Ok(1)))?;
    same("the Rust's exact set", set(&mut rust(input, 12), Some(2)), Some(Ok(2)))?;
    let mut table = [9; 10];
    let mut p = ours(input, 12, true);
    same("here", (p.set(&mut table), p.values[0]), (proved::DONE, 2))?;
    let mut p = ours(input, 12, false);
    same("here, the end not noted", (p.set_exact(&mut table, 2), p.values[0]), (proved::DONE, 1))
}

fn entry_8() -> Result<(), String> {
    let listed = if cfg!(debug_assertions) { None } else { Some(Ok(1)) };
    if !cfg!(debug_assertions) {
        same("the Rust", set(&mut rust(RECORD, 7), Some(0)), listed)?;
    }
    same("here", ours(RECORD, 7, true).set_exact(&mut [9; 10], 0), 6)
}

fn entry_9() -> Result<(), String> {
    same("the Rust panics", panics(|| Reader::with_capacity(RECORD, 2).position().byte()), true)?;
    same("here", [proved::open(2), proved::open(3), proved::open(16_777_216), proved::open(16_777_217)], [1, 0, 0, 1])?;
    same("the Rust takes the larger", next(&mut rust(RECORD, 16_777_217)), Some(Ok(())))
}

fn entry_10() -> Result<(), String> {
    let limit = 1 << 48;
    let mut o = rust(RECORD, 7);
    o.seek(&Position::new(1, limit + 1)).map_err(|e| e.to_string())?;
    same("the Rust", next(&mut o), None)?;
    let mut p = ours(RECORD, 7, false);
    same("here", [p.seek(1, limit + 1), p.seek(limit + 1, 0)], [5, 5])?;
    same("here, at the limit", p.seek(limit, limit), proved::FEED_FROM)
}

fn entry_11() -> Result<(), String> {
    let id = Some("\u{fffd}".to_string());
    same("the Rust", next(&mut rust(b"@\xff\n", 4)), Some(Err(Fault::UnexpectedEnd(2, id))))?;
    let mut p = ours(b"@\xff\n", 4, true);
    same("here", (p.next(), p.values), (proved::UNEXPECTED_END, [2, 1, 1, 2, 0, 0]))
}

fn entry_12() -> Result<(), String> {
    same("the Rust", next(&mut rust(b"aaa", 3)), Some(Err(Fault::WindowLimit)))?;
    let mut p = ours(b"aaa", 3, false);
    same("here", (p.next(), p.values), (proved::WINDOW_LIMIT, [1, 0, 0, 0, 0, 0]))
}

/// Runs every entry; answers how many do not do what they say.
pub fn run() -> usize {
    let entries = [
        entry_1, entry_2, entry_3, entry_4, entry_5, entry_6, entry_7, entry_8, entry_9, entry_10, entry_11, entry_12,
    ];
    let mut wrong = 0;
    for (i, entry) in entries.iter().enumerate() {
        let found = catch_unwind(entry).unwrap_or_else(|_| Err("it panicked".to_string()));
        if let Err(what) = found {
            println!("entry {} of docs/DIFFERENCES.md does not hold: {what}", i + 1);
            wrong += 1;
        }
    }
    println!("{} of {} entries of docs/DIFFERENCES.md hold as written", entries.len() - wrong, entries.len());
    wrong
}
