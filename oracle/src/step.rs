//! One call of `next` on both sides.

use crate::original::{self, fault, Fault, Original};
use crate::proved::{self, Proved};
use crate::record;
use crate::tally::Tally;

/// How the answer leaves the reading.
#[derive(PartialEq, Clone, Copy)]
pub enum Step {
    Record,
    Closed,
    /// Closed by the window limit: the Rust does not close, so it is asked no more (entries 5 and 6).
    Limit,
}

/// The proved library's error, as the Rust would put it.
pub fn told(p: &Proved, code: usize) -> Option<Fault> {
    let v = p.values;
    let id = |at: usize| match v[at] {
        0 => None,
        _ => Some(String::from_utf8_lossy(&p.window[v[at + 1]..v[at + 2]]).into_owned()),
    };
    match code {
        proved::WINDOW_LIMIT => Some(Fault::WindowLimit),
        proved::INVALID_START => Some(Fault::InvalidStart(v[0] as u8, v[1] as u64)),
        proved::INVALID_SEPARATOR => Some(Fault::InvalidSeparator(v[0] as u8, v[1] as u64, id(2))),
        proved::UNEQUAL_LENGTHS => Some(Fault::UnequalLengths(v[0], v[1], v[2] as u64, id(3))),
        proved::UNEXPECTED_END => Some(Fault::UnexpectedEnd(v[0] as u64, id(1))),
        _ => None,
    }
}

fn kind(f: &Fault) -> &'static str {
    match f {
        Fault::WindowLimit => "window limit",
        Fault::InvalidStart(..) => "invalid start",
        Fault::InvalidSeparator(..) => "invalid separator",
        Fault::UnequalLengths(..) => "unequal lengths",
        Fault::UnexpectedEnd(..) => "unexpected end",
    }
}

/// An error on both sides, with its values.
pub fn same_fault(rust: &Fault, p: &Proved, code: usize, t: &mut Tally) -> Result<(), String> {
    t.count(kind(rust));
    let ours = told(p, code);
    if Some(rust) == ours.as_ref() {
        return Ok(());
    }
    Err(format!("the Rust answers {rust:?}, the library {code} with {ours:?}"))
}

pub fn same_position(o: &Original, p: &mut Proved, t: &mut Tally) -> Result<(), String> {
    t.count("position");
    let (rust, ours) = (original::position(o), p.position());
    if rust == ours {
        return Ok(());
    }
    Err(format!("the Rust's position is {rust:?}, the library's {ours:?}"))
}

/// One answer of each, and the position after it. `writers`: a record is written too.
pub fn step(o: &mut Original, p: &mut Proved, t: &mut Tally, writers: bool) -> Result<Step, String> {
    let code = p.next();
    let step = match o.next() {
        None => {
            t.count("end");
            if code != proved::END {
                return Err(format!("the Rust answers None, the library {code} with {:?}", p.values));
            }
            Step::Closed
        }
        Some(Ok(r)) => {
            t.count("record");
            if code != proved::DONE {
                return Err(format!("the Rust answers a record, the library {code} with {:?}", p.values));
            }
            record::fields(&r, p, p.five(), t)?;
            if writers {
                record::writers(&r, p, p.five(), t)?;
            }
            t.count("byte of a record");
            let byte = p.values[5] as u64;
            if original::position(o).1 != byte {
                return Err(format!("the Rust's record is at {}, the library's at {byte}", original::position(o).1));
            }
            Step::Record
        }
        Some(Err(e)) => {
            let f = fault(e);
            same_fault(&f, p, code, t)?;
            if f == Fault::WindowLimit {
                t.count("values of a window limit");
                let values = (p.values[0] as u64, p.values[1] as u64);
                if original::position(o) != values {
                    return Err(format!("window limit with {values:?}, the Rust's position is {:?}", original::position(o)));
                }
                Step::Limit
            } else {
                Step::Closed
            }
        }
    };
    same_position(o, p, t)?;
    Ok(step)
}
