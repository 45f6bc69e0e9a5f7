//! The Rust: seq_io's reader over a source in memory, with a policy that never grows its buffer.

use crate::chunks::Chunks;
use seq_io::fastq::{Error, Reader};
use seq_io::policy::BufPolicy;
use std::io::{self, Read, Seek, SeekFrom};

pub struct Never;

impl BufPolicy for Never {
    fn grow_to(&mut self, _: usize) -> Option<usize> {
        None
    }
}

/// An input that is given in chunks.
pub struct Source<'a> {
    input: &'a [u8],
    at: usize,
    chunks: Chunks,
}

impl Read for Source<'_> {
    fn read(&mut self, out: &mut [u8]) -> io::Result<usize> {
        let left = self.input.len().saturating_sub(self.at).min(out.len());
        if left == 0 {
            return Ok(0);
        }
        let n = self.chunks.next(left);
        out[..n].copy_from_slice(&self.input[self.at..self.at + n]);
        self.at += n;
        Ok(n)
    }
}

impl Seek for Source<'_> {
    fn seek(&mut self, to: SeekFrom) -> io::Result<u64> {
        let SeekFrom::Start(n) = to else {
            return Err(io::ErrorKind::Unsupported.into());
        };
        self.at = n as usize;
        Ok(n)
    }
}

pub type Original<'a> = Reader<Source<'a>, Never>;

pub fn open(input: &[u8], window: usize, chunks: Chunks) -> Original<'_> {
    Reader::with_capacity(Source { input, at: 0, chunks }, window).set_policy(Never)
}

pub fn position<R: Read, P: BufPolicy>(reader: &Reader<R, P>) -> (u64, u64) {
    (reader.position().line(), reader.position().byte())
}

/// An error as document 01's number and values; an id is the text that the Rust makes of it.
#[derive(Debug, PartialEq, Clone)]
pub enum Fault {
    WindowLimit,
    InvalidStart(u8, u64),
    InvalidSeparator(u8, u64, Option<String>),
    UnequalLengths(usize, usize, u64, Option<String>),
    UnexpectedEnd(u64, Option<String>),
}

pub fn fault(e: Error) -> Fault {
    match e {
        Error::Io(e) => panic!("the source in memory failed: {e}"),
        Error::BufferLimit => Fault::WindowLimit,
        Error::InvalidStart { found, pos } => {
            assert!(pos.id.is_none(), "an invalid start has an id");
            Fault::InvalidStart(found, pos.line)
        }
        Error::InvalidSep { found, pos } => Fault::InvalidSeparator(found, pos.line, pos.id),
        Error::UnequalLengths { seq, qual, pos } => Fault::UnequalLengths(seq, qual, pos.line, pos.id),
        Error::UnexpectedEnd { pos } => Fault::UnexpectedEnd(pos.line, pos.id),
    }
}
