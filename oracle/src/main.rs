//! Compares the proved library with the Rust that it was ported from, in one process. docs/DIFFERENCES.md says what is compared, and how.

mod chunks;
mod entries;
mod inputs;
mod list;
mod original;
mod proved;
mod random;
mod record;
mod runs;
mod step;
mod tally;

use random::Random;
use runs::Run;
use std::time::Instant;
use tally::{Case, Tally};

/// Every kind of run on one input and window.
fn all_kinds(run: &Run, t: &mut Tally) {
    run.next(true, t);
    run.seek(t);
    let n = run.number as usize;
    run.sets_by_next(1 + n % 4, 5 * (1 + n / 4 % 4) + n % 5, t);
    run.sets(None, false, t);
    run.sets(None, true, t);
    run.sets(Some(1 + n % 3), false, t);
    run.sets(Some(1 + n / 3 % 5), n % 2 == 0, t);
}

/// All inputs of at most so many bytes; longer ones than `fully` are read by `next` alone.
fn short(most: usize, fully: usize, t: &mut Tally) {
    let mut number = 0;
    for n in 0..=most {
        inputs::every(n, |input| {
            t.inputs += 1;
            for window in 3..=(n + 2).max(3) {
                number += 1;
                let run = Run { input, window, number, most: 4 };
                if n <= fully {
                    all_kinds(&run, t);
                } else {
                    run.next(false, t);
                }
            }
        });
    }
}

/// What the Rust answers after the window limit, over all inputs of at most so many bytes.
fn limits(most: usize, t: &mut Tally) {
    for n in 0..=most {
        inputs::every(n, |input| {
            for window in 3..=n.max(3) {
                Run { input, window, number: 0, most: 4 }.after_limit(t);
            }
        });
    }
}

/// Rows of records with tails, at every window up to a little past the input.
fn rows(n: usize, t: &mut Tally) {
    let mut number = 0;
    inputs::rows(n, |input| {
        t.inputs += 1;
        for window in 3..=(input.len() + 2).max(3) {
            number += 1;
            all_kinds(&Run { input, window, number, most: 9 }, t);
        }
    });
}

/// Random inputs, some damaged, at windows around every boundary.
fn damaged(count: u64, t: &mut Tally) {
    let mut random = Random::new(1);
    for _ in 0..count {
        let most = random.one_of(&[2, 8, 40, 200]);
        let input = inputs::random(&mut random, most);
        t.inputs += 1;
        for window in inputs::windows(&mut random, &input) {
            let most = 1 + random.below(window + 4);
            all_kinds(&Run { input: &input, window, number: random.number() >> 8, most }, t);
        }
    }
}

/// Fields that no record need have, through the writers.
fn fields(count: u64, t: &mut Tally) {
    let mut random = Random::new(2);
    for _ in 0..count {
        let mut field = |most: usize| -> Vec<u8> { (0..random.below(most)).map(|_| random.one_of(b"@+\n\r A\xff")).collect() };
        let (head, seq, qual, id, desc) = (field(9), field(20), field(20), field(6), field(6));
        let desc = if seq.len() % 2 == 0 { Some(desc.as_slice()) } else { None };
        t.runs += 1;
        if let Err(what) = record::fields_written(&head, &seq, &qual, (&id, desc), t) {
            t.difference(Case { input: head, window: 0, what });
        }
    }
}

fn timed(name: &str, t: &mut Tally, stage: impl FnOnce(&mut Tally)) {
    let (from, before) = (Instant::now(), t.comparisons());
    stage(t);
    println!("{name}: {} comparisons, {:.0} s", t.comparisons() - before, from.elapsed().as_secs_f64());
}

fn main() {
    if std::env::args().any(|a| a == "--list") {
        list::write().expect("the list is written");
        return;
    }
    let quick = std::env::args().any(|a| a == "--quick");
    // a panic is caught and told with its input
    std::panic::set_hook(Box::new(|_| {}));
    let mut t = Tally::default();
    let (most, fully, records, count) = if quick { (6, 5, 1, 2_000) } else { (8, 7, 2, 40_000) };
    timed(&format!("all inputs of at most {most} bytes"), &mut t, |t| short(most, fully, t));
    timed(&format!("rows of at most {records} records"), &mut t, |t| rows(records, t));
    timed(&format!("{count} random and damaged inputs"), &mut t, |t| damaged(count, t));
    timed("after the window limit", &mut t, |t| limits(5, t));
    timed("fields through the writers", &mut t, |t| fields(count * 10, t));
    t.print();
    let wrong = entries::run();
    if t.differences != 0 || wrong != 0 {
        std::process::exit(1);
    }
}
