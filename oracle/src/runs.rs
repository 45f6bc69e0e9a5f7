//! Whole runs of both sides over one input through one window: by `next`, with seeks, by sets.

use crate::chunks::Chunks;
use crate::original::{self, fault, Fault, Original};
use crate::proved::{self, Proved};
use crate::random::Random;
use crate::record;
use crate::step::{same_fault, same_position, step, told, Step};
use crate::tally::{Case, Tally};
use seq_io::fastq::{Position, RecordSet};
use std::any::Any;
use std::panic::{catch_unwind, AssertUnwindSafe};

/// An input, a window, and the plans by which each side is given its chunks.
pub struct Run<'a> {
    pub input: &'a [u8],
    pub window: usize,
    pub number: u64,
    pub most: usize,
}

/// What a panic said.
fn message(e: &(dyn Any + Send)) -> String {
    match e.downcast_ref::<String>() {
        Some(s) => s.clone(),
        None => e.downcast_ref::<&str>().unwrap_or(&"").to_string(),
    }
}

impl<'a> Run<'a> {
    fn both(&self) -> (Original<'a>, Proved<'a>) {
        let theirs = Chunks::plan(self.number / 7, self.most);
        let ours = Chunks::plan(self.number, self.most);
        let Ok(p) = Proved::open(self.input, self.window, ours) else {
            panic!("open refused a window of {} bytes", self.window);
        };
        (original::open(self.input, self.window, theirs), p)
    }

    /// More answers than a run can have.
    fn most_answers(&self) -> usize {
        self.input.len() + 4
    }

    /// Makes a run, counts it, and keeps what it found; a panic of either side is a finding.
    fn kept(&self, name: &str, t: &mut Tally, run: impl FnOnce(&mut Tally) -> Result<(), String>) {
        t.runs += 1;
        let found = catch_unwind(AssertUnwindSafe(|| run(t))).unwrap_or_else(|e| Err(format!("a panic: {}", message(&*e))));
        if let Err(what) = found {
            t.difference(Case { input: self.input.to_vec(), window: self.window, what: format!("{name}, run {}: {what}", self.number) });
        }
    }

    pub fn next(&self, writers: bool, t: &mut Tally) {
        self.kept("next", t, |t| self.try_next(writers, t));
    }

    /// Up to the closing answer and, where the Rust closes too, two answers past it.
    fn try_next(&self, writers: bool, t: &mut Tally) -> Result<(), String> {
        let (mut o, mut p) = self.both();
        for _ in 0..self.most_answers() {
            match step(&mut o, &mut p, t, writers)? {
                Step::Record => {}
                Step::Limit => return Ok(()),
                Step::Closed => {
                    for _ in 0..2 {
                        if step(&mut o, &mut p, t, false)? != Step::Closed {
                            return Err("a closed reading answers more than End".to_string());
                        }
                    }
                    return Ok(());
                }
            }
        }
        Err("no closing answer".to_string())
    }

    /// What the Rust answers after the window limit, where the library answers End: entries 5 and 6.
    pub fn after_limit(&self, t: &mut Tally) {
        let (mut o, _) = self.both();
        let mut limits = 0;
        for _ in 0..self.most_answers() {
            match catch_unwind(AssertUnwindSafe(|| o.next().map(|r| r.map(|_| ()).map_err(fault)))) {
                Err(_) => {
                    return self.known("6. after the window limit: a panic", format!("at the next after {limits} BufferLimits"), t);
                }
                Ok(Some(Err(Fault::WindowLimit))) => limits += 1,
                Ok(Some(answer)) if 0 < limits => self.known("5. after the window limit: an answer", format!("{answer:?}"), t),
                Ok(None) => return,
                Ok(_) => {}
            }
        }
    }

    /// To every earlier position, from the last to the first and from the first to the last, and to some places that are no record's.
    pub fn seek(&self, t: &mut Tally) {
        self.kept("seek", t, |t| self.try_seek(t));
    }

    fn try_seek(&self, t: &mut Tally) -> Result<(), String> {
        let (mut o, mut p) = self.both();
        let mut seen = vec![(1, 0)];
        for _ in 0..self.most_answers() {
            let closed = step(&mut o, &mut p, t, false)? != Step::Record;
            seen.push(original::position(&o));
            if closed {
                break;
            }
        }
        let mut random = Random::new(self.number);
        let some = (0..2).map(|_| (1 + random.below(9) as u64, random.below(self.input.len() + 3) as u64));
        let places: Vec<_> = seen.iter().rev().chain(&seen).copied().chain(some).collect();
        for (line, byte) in places {
            self.sought(&mut o, &mut p, line, byte, t).map_err(|e| format!("after a seek to ({line}, {byte}): {e}"))?;
        }
        Ok(())
    }

    /// A seek, and the two answers after it.
    fn sought(&self, o: &mut Original, p: &mut Proved, line: u64, byte: u64, t: &mut Tally) -> Result<(), String> {
        t.count("seek");
        let code = p.seek(line, byte);
        o.seek(&Position::new(line, byte)).map_err(|e| format!("the Rust answers {e}"))?;
        if code != proved::DONE && code != proved::FEED_FROM {
            return Err(format!("the library answers {code}"));
        }
        same_position(o, p, t)?;
        for _ in 0..2 {
            if step(o, p, t, false)? != Step::Record {
                break;
            }
        }
        Ok(())
    }

    /// The library's sets against the Rust's `next`: the records listed, the position behind them, and the answer that is no record.
    pub fn sets_by_next(&self, wanted: usize, room: usize, t: &mut Tally) {
        let name = format!("sets of {wanted} in a table of {room} numbers, by next");
        self.kept(&name, t, |t| self.try_sets_by_next(wanted, room, t));
    }

    fn try_sets_by_next(&self, wanted: usize, room: usize, t: &mut Tally) -> Result<(), String> {
        let (mut o, mut p) = self.both();
        let mut table = vec![usize::MAX; room];
        for _ in 0..self.most_answers() {
            table.fill(usize::MAX);
            let code = loop {
                let code = p.set_exact(&mut table, wanted);
                if code != proved::MORE {
                    break code;
                }
                p.bring();
            };
            t.count("set call, by next");
            let k = if code == proved::DONE { p.values[0] } else { 0 };
            if wanted.min(room / 5) < k || table[5 * k..].iter().any(|n| *n != usize::MAX) {
                return Err(format!("{k} records listed, the table is {table:?}"));
            }
            if code != proved::DONE {
                return self.closes(&mut o, &mut p, code, t);
            }
            self.listed(&mut o, &mut p, &table[..5 * k], t)?;
        }
        Err("no closing answer".to_string())
    }

    /// Each entry is the record that the Rust's `next` gives, and the position is that behind the last.
    fn listed(&self, o: &mut Original, p: &mut Proved, rows: &[usize], t: &mut Tally) -> Result<(), String> {
        let mut behind = (0, 0);
        for row in rows.chunks_exact(5) {
            let five = [row[0], row[1], row[2], row[3], row[4]];
            let Some(Ok(r)) = o.next() else {
                return Err(format!("the Rust's next has no record for the entry {five:?}"));
            };
            t.count("entry of a set, by next");
            record::fields(&r, p, five, t)?;
            let (line, byte) = original::position(o);
            let end = byte as usize + (five[4] - five[0]);
            behind = (line + 4, self.input.len().min(end + 1) as u64);
        }
        t.count("position behind a set, by next");
        if p.position() != behind {
            return Err(format!("behind the set the position is {:?} and not {behind:?}", p.position()));
        }
        Ok(())
    }

    /// An answer of a set call that is no set is that of the Rust's `next`.
    fn closes(&self, o: &mut Original, p: &mut Proved, code: usize, t: &mut Tally) -> Result<(), String> {
        t.count("closing answer of sets, by next");
        match o.next() {
            None if code == proved::END => Ok(()),
            Some(Err(e)) => {
                same_fault(&fault(e), p, code, t)?;
                same_position(o, p, t)
            }
            _ => Err(format!("the library answers {code}, and the Rust's next another thing")),
        }
    }

    /// The library's sets against the Rust's own. `eager`: the end is noted as soon as the input is all in the window and leaves room there,
    /// which is where the Rust sees the end; otherwise it is noted only when more input is wanted.
    pub fn sets(&self, wanted: Option<usize>, eager: bool, t: &mut Tally) {
        let name = match wanted {
            None => "read_record_set".to_string(),
            Some(n) => format!("read_record_set_exact of {n}"),
        };
        self.kept(&name, t, |t| self.try_sets(wanted, eager, t));
    }

    /// A set call that is given input as the Rust gives it to its buffer: until that is full.
    fn set_call(&self, p: &mut Proved, table: &mut [usize], wanted: Option<usize>, eager: bool) -> usize {
        loop {
            let code = match wanted {
                None => p.set(table),
                Some(n) => p.set_exact(table, n),
            };
            if code != proved::MORE {
                return code;
            }
            if p.at_end() {
                p.note_end();
                continue;
            }
            p.fill();
            if eager && p.at_end() && p.has_room() {
                p.note_end();
            }
        }
    }

    fn try_sets(&self, wanted: Option<usize>, eager: bool, t: &mut Tally) -> Result<(), String> {
        let (mut o, mut p) = self.both();
        let mut set = RecordSet::default();
        let mut table = vec![0; 5 * (self.input.len() / 5 + 2)];
        for _ in 0..self.most_answers() {
            let rust = match wanted {
                None => o.read_record_set(&mut set),
                Some(n) => o.read_record_set_exact(&mut set, Some(n)),
            };
            let rust = rust.map(|r| r.map_err(fault));
            let code = self.set_call(&mut p, &mut table, wanted, eager);
            t.count(if wanted.is_none() { "read_record_set" } else { "read_record_set_exact" });
            let go_on = match rust {
                Some(Ok(())) => self.same_set(&mut o, &mut p, &set, &mut table, wanted, eager, code, t)?,
                None => self.none(&mut o, &mut p, &mut table, wanted, eager, code, t)?,
                Some(Err(f)) => self.failed(&mut o, &mut p, &mut table, wanted, eager, code, f, t)?,
            };
            if !go_on {
                return Ok(());
            }
        }
        Err("no closing answer".to_string())
    }

    fn known(&self, entry: &'static str, what: String, t: &mut Tally) {
        t.known(entry, self.input, self.window, what);
    }

    /// The Rust answers a set. What follows is to be compared too, but where a known difference stands between.
    #[allow(clippy::too_many_arguments)]
    fn same_set(
        &self, o: &mut Original, p: &mut Proved, set: &RecordSet, table: &mut [usize], wanted: Option<usize>, eager: bool, code: usize, t: &mut Tally,
    ) -> Result<bool, String> {
        if code != proved::DONE {
            return Err(format!("the Rust answers a set of {}, the library {code}", set.len()));
        }
        let k = p.values[0];
        for (r, row) in set.into_iter().zip(table[..5 * k].chunks_exact(5)) {
            t.count("entry of a set");
            record::fields(&r, p, [row[0], row[1], row[2], row[3], row[4]], t)?;
        }
        if wanted.is_none() && eager && k == set.len() + 1 {
            self.cut_by_rust(o, p, table, k, t)?;
            self.known("7. where sets are cut", format!("read_record_set: {} records and then 1, not {k}", set.len()), t);
            return Ok(false);
        }
        if wanted.is_some() && !eager && k + 1 == set.len() {
            self.cut_by_us(p, set, table, wanted, t)?;
            self.known("7. where sets are cut", format!("{} wanted, the end noted late: {} records and not {k} and then 1", wanted.unwrap_or(0), set.len()), t);
            return Ok(false);
        }
        if k != set.len() {
            return Err(format!("the Rust answers a set of {}, the library one of {k}", set.len()));
        }
        t.count("position behind a set");
        let (rust, ours) = (original::position(o), p.position());
        if self.unended(p, table[5 * k - 1]) && rust == (ours.0, ours.1 + 1) {
            self.known("4. the position after an unended record", format!("{rust:?} and not {ours:?}"), t);
            t.count("end");
            let mut rest = RecordSet::default();
            if o.read_record_set(&mut rest).is_some() || p.next() != proved::END || p.position() != ours {
                return Err("after an unended record there is more than an end".to_string());
            }
            return Ok(false);
        }
        if rust != ours {
            return Err(format!("behind the set the Rust's position is {rust:?}, the library's {ours:?}"));
        }
        Ok(true)
    }

    /// A record of the window ends where the input does.
    fn unended(&self, p: &Proved, end: usize) -> bool {
        p.state[10] - p.state[1] + end == self.input.len()
    }

    /// The library listed the unended last record too: the Rust's following set is that record alone.
    fn cut_by_rust(&self, o: &mut Original, p: &Proved, table: &[usize], k: usize, t: &mut Tally) -> Result<(), String> {
        let row = &table[5 * k - 5..5 * k];
        let mut rest = RecordSet::default();
        let Some(Ok(())) = o.read_record_set(&mut rest) else {
            return Err("the Rust has no set for the last record".to_string());
        };
        if rest.len() != 1 || !self.unended(p, row[4]) {
            return Err(format!("the library lists {k} records, and the Rust {} more", rest.len()));
        }
        for r in &rest {
            t.count("entry of a set");
            record::fields(&r, p, [row[0], row[1], row[2], row[3], row[4]], t)?;
        }
        Ok(())
    }

    /// The Rust listed the unended last record too: the library's following set is that record alone.
    fn cut_by_us(&self, p: &mut Proved, set: &RecordSet, table: &mut [usize], wanted: Option<usize>, t: &mut Tally) -> Result<(), String> {
        let code = self.set_call(p, table, wanted, false);
        if code != proved::DONE || p.values[0] != 1 || !self.unended(p, table[4]) {
            return Err(format!("the Rust lists {} records, the library one less and then {code} with {:?}", set.len(), p.values));
        }
        if let Some(r) = set.into_iter().last() {
            t.count("entry of a set");
            record::fields(&r, p, [table[0], table[1], table[2], table[3], table[4]], t)?;
        }
        Ok(())
    }

    /// The Rust answers None.
    #[allow(clippy::too_many_arguments)]
    fn none(&self, o: &mut Original, p: &mut Proved, table: &mut [usize], wanted: Option<usize>, eager: bool, code: usize, t: &mut Tally) -> Result<bool, String> {
        if code == proved::DONE && wanted.is_some_and(|n| p.values[0] < n) {
            let k = p.values[0];
            same_position(o, p, t)?;
            let then = self.set_call(p, table, wanted, eager);
            if then != proved::END {
                return Err(format!("the Rust answers None, the library {k} records and then {then}"));
            }
            self.known("3. a short last set", format!("{} wanted: None and not {k} records", wanted.unwrap_or(0)), t);
            same_position(o, p, t)?;
            return Ok(false);
        }
        t.count("end");
        if code != proved::END {
            return Err(format!("the Rust answers None, the library {code} with {:?}", p.values));
        }
        same_position(o, p, t)?;
        Ok(false)
    }

    /// The Rust answers an error; good records of the same call are dropped there.
    #[allow(clippy::too_many_arguments)]
    fn failed(
        &self, o: &mut Original, p: &mut Proved, table: &mut [usize], wanted: Option<usize>, eager: bool, code: usize, f: Fault, t: &mut Tally,
    ) -> Result<bool, String> {
        if code != proved::DONE {
            same_fault(&f, p, code, t)?;
            same_position(o, p, t)?;
            return Ok(false);
        }
        let k = p.values[0];
        if wanted.is_some_and(|n| n <= k) {
            return Err(format!("the Rust answers {f:?}, the library all {k} records"));
        }
        same_position(o, p, t)?;
        let asked = wanted.map_or("read_record_set".to_string(), |n| format!("{n} wanted"));
        if f == Fault::WindowLimit {
            if wanted.is_none() {
                return Err(format!("the Rust answers {f:?}, the library {k} records"));
            }
            self.known("1. wanted records that do not fit together", format!("{asked}: BufferLimit and not {k} records"), t);
            return Ok(false);
        }
        let then = self.set_call(p, table, wanted, eager);
        if told(p, then).as_ref() != Some(&f) {
            return Err(format!("the Rust answers {f:?}, the library {k} records and then {then}"));
        }
        self.known("2. good records before an error", format!("{asked}: {f:?} and not {k} records first"), t);
        same_position(o, p, t)?;
        Ok(false)
    }
}
