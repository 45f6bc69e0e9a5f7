//! How often each kind of thing was compared, and what was found.

use std::collections::BTreeMap;

/// A case that is shown: the input, the window, how it was run, and what it showed.
#[derive(Clone)]
pub struct Case {
    pub input: Vec<u8>,
    pub window: usize,
    pub what: String,
}

#[derive(Default)]
pub struct Tally {
    pub inputs: u64,
    pub runs: u64,
    counts: BTreeMap<&'static str, u64>,
    /// Known differences, by the number of their entry: how often each was met, and the smallest case.
    known: BTreeMap<&'static str, (u64, Case)>,
    pub differences: u64,
    shown: Vec<Case>,
}

const SHOWN: usize = 20;

/// The shorter input is the smaller; of two as long, the one with the smaller window.
fn smaller(a: &Case, b: &Case) -> bool {
    (a.input.len(), a.window) < (b.input.len(), b.window)
}

impl Tally {
    pub fn count(&mut self, kind: &'static str) {
        *self.counts.entry(kind).or_default() += 1;
    }

    pub fn known(&mut self, entry: &'static str, input: &[u8], window: usize, what: String) {
        let case = Case { input: input.to_vec(), window, what };
        match self.known.get_mut(entry) {
            None => {
                self.known.insert(entry, (1, case));
            }
            Some((n, first)) => {
                *n += 1;
                if smaller(&case, first) {
                    *first = case;
                }
            }
        }
    }

    pub fn difference(&mut self, case: Case) {
        self.differences += 1;
        if self.shown.len() < SHOWN {
            self.shown.push(case);
        } else if let Some(last) = self.shown.iter_mut().max_by_key(|c| (c.input.len(), c.window)) {
            if smaller(&case, last) {
                *last = case;
            }
        }
    }

    /// Nothing was found, known or not.
    pub fn clean(&self) -> bool {
        self.differences == 0 && self.known.is_empty()
    }

    pub fn comparisons(&self) -> u64 {
        self.counts.values().sum()
    }

    pub fn print(&mut self) {
        println!("{} inputs, {} runs, {} comparisons:", self.inputs, self.runs, self.comparisons());
        for (kind, n) in &self.counts {
            println!("  {n:>12}  {kind}");
        }
        println!("known differences met (docs/DIFFERENCES.md), each with the smallest case:");
        for (entry, (n, case)) in &self.known {
            println!("  {n:>12}  {entry}: \"{}\", W = {}, {}", text(&case.input), case.window, case.what);
        }
        println!("{} differences on no list", self.differences);
        self.shown.sort_by_key(|c| (c.input.len(), c.window));
        for case in &self.shown {
            println!("  \"{}\", W = {}: {}", text(&case.input), case.window, case.what);
        }
    }
}

/// Bytes as Rust writes them.
pub fn text(bytes: &[u8]) -> String {
    bytes.escape_ascii().to_string()
}
