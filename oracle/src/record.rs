//! One record on both sides: its fields, its places, and what the writers make of it.

use crate::proved::{self, Five, Proved, View};
use crate::tally::{text, Tally};
use seq_io::fastq::{self, Record, RefRecord};

/// Bytes of the output that no write may touch.
const AROUND: usize = 3;
const UNTOUCHED: u8 = 0xee;

fn same(t: &mut Tally, kind: &'static str, rust: &[u8], ours: Option<&[u8]>) -> Result<(), String> {
    t.count(kind);
    if Some(rust) == ours {
        return Ok(());
    }
    Err(format!("{kind}: the Rust has \"{}\", the library {:?}", text(rust), ours.map(text)))
}

/// The bytes of each view, and where the sequence and the quality stand behind the head.
pub fn fields(r: &RefRecord, p: &Proved, five: Five, t: &mut Tally) -> Result<(), String> {
    same(t, "head", r.head(), p.view(View::Head, five))?;
    same(t, "seq", r.seq(), p.view(View::Seq, five))?;
    same(t, "qual", r.qual(), p.view(View::Qual, five))?;
    same(t, "id", r.id_bytes(), p.view(View::Id, five))?;
    t.count("description");
    let desc = p.view(View::Desc, five);
    if r.desc_bytes() != desc {
        return Err(format!("description: the Rust has {:?}, the library {:?}", r.desc_bytes().map(text), desc.map(text)));
    }
    t.count("places of seq and qual");
    let head = r.head().as_ptr() as usize;
    let rust = (r.seq().as_ptr() as usize - head, r.qual().as_ptr() as usize - head);
    let ours = (five[1] - five[0] - 1, five[3] - five[0] - 1);
    if rust != ours {
        return Err(format!("places of seq and qual: the Rust has {rust:?}, the library {ours:?}"));
    }
    Ok(())
}

/// What a write left in an output with bytes around it.
fn written(t: &mut Tally, kind: &'static str, rust: &[u8], out: &[u8], told: (usize, usize)) -> Result<(), String> {
    t.count(kind);
    let end = AROUND + rust.len();
    let around = out[..AROUND].iter().chain(&out[end..]).all(|b| *b == UNTOUCHED);
    if told == (proved::DONE, rust.len()) && &out[AROUND..end] == rust && around {
        return Ok(());
    }
    Err(format!("{kind}: the Rust wrote \"{}\", the library \"{}\" and answered {told:?}", text(rust), text(out)))
}

/// An output with too little room is refused, and stays as it was.
fn refused(t: &mut Tally, kind: &'static str, out: &[u8], told: (usize, usize)) -> Result<(), String> {
    t.count(kind);
    if told == (12, 0) && out.iter().all(|b| *b == UNTOUCHED) {
        return Ok(());
    }
    Err(format!("{kind} with too little room answered {told:?}"))
}

/// `write_to` and `write_parts` of any fields.
pub fn fields_written(head: &[u8], seq: &[u8], qual: &[u8], parts: (&[u8], Option<&[u8]>), t: &mut Tally) -> Result<(), String> {
    let mut rust = Vec::new();
    fastq::write_to(&mut rust, head, seq, qual).expect("a write to memory");
    let mut out = vec![UNTOUCHED; AROUND + rust.len() + AROUND];
    let told = proved::write_to(&mut out, AROUND, head, seq, qual);
    written(t, "write_to", &rust, &out, told)?;
    let mut short = vec![UNTOUCHED; AROUND + rust.len() - 1];
    let told = proved::write_to(&mut short, AROUND, head, seq, qual);
    refused(t, "write_to refused", &short, told)?;
    rust.clear();
    fastq::write_parts(&mut rust, parts.0, parts.1, seq, qual).expect("a write to memory");
    let mut out = vec![UNTOUCHED; AROUND + rust.len() + AROUND];
    let told = proved::write_parts(&mut out, AROUND, parts.0, parts.1, seq, qual);
    written(t, "write_parts", &rust, &out, told)?;
    let mut short = vec![UNTOUCHED; AROUND + rust.len() - 1];
    let told = proved::write_parts(&mut short, AROUND, parts.0, parts.1, seq, qual);
    refused(t, "write_parts refused", &short, told)
}

/// The three writers, on a record that was read.
pub fn writers(r: &RefRecord, p: &Proved, five: Five, t: &mut Tally) -> Result<(), String> {
    fields_written(r.head(), r.seq(), r.qual(), (r.id_bytes(), r.desc_bytes()), t)?;
    let mut rust = Vec::new();
    r.write_unchanged(&mut rust).expect("a write to memory");
    let mut out = vec![UNTOUCHED; AROUND + rust.len() + AROUND];
    let told = p.write_unchanged(&mut out, AROUND, five);
    written(t, "write_unchanged", &rust, &out, told)?;
    let mut short = vec![UNTOUCHED; AROUND + rust.len() - 1];
    let told = p.write_unchanged(&mut short, AROUND, five);
    refused(t, "write_unchanged refused", &short, told)
}
