//! A stand-in for the crate buffer_redux, which is not to be had: just what `fastq.rs` and `fill_buf` call of it,
//! written anew from how they use it. It is no copy, and a run over it says nothing of the real crate.

use std::io::{self, BufRead, Read, Seek, SeekFrom};

pub mod policy {
    /// Named by `fill_buf` in the reader's type; nothing here asks it.
    pub struct StdPolicy;
}

/// A reader with a buffer of one capacity. The bytes held are `bytes[from..to]`.
pub struct BufReader<R, P = policy::StdPolicy> {
    source: R,
    bytes: Vec<u8>,
    from: usize,
    to: usize,
    policy: std::marker::PhantomData<P>,
}

impl<R: Read> BufReader<R> {
    pub fn with_capacity(capacity: usize, source: R) -> Self {
        BufReader {
            source,
            bytes: vec![0; capacity],
            from: 0,
            to: 0,
            policy: std::marker::PhantomData,
        }
    }
}

impl<R, P> BufReader<R, P> {
    /// The bytes that are held and not consumed.
    pub fn buffer(&self) -> &[u8] {
        &self.bytes[self.from..self.to]
    }

    pub fn capacity(&self) -> usize {
        self.bytes.len()
    }

    /// Room for so many bytes more. The comparison's policy never lets it be called.
    pub fn reserve(&mut self, additional: usize) {
        let n = self.bytes.len() + additional;
        self.bytes.resize(n, 0);
    }

    /// Moves the bytes held to the front.
    pub fn make_room(&mut self) {
        self.bytes.copy_within(self.from..self.to, 0);
        self.to -= self.from;
        self.from = 0;
    }
}

impl<R: Read, P> BufReader<R, P> {
    /// One read into the room behind the bytes held; 0 where there is none, or at the end of the source.
    pub fn read_into_buf(&mut self) -> io::Result<usize> {
        let n = self.source.read(&mut self.bytes[self.to..])?;
        self.to += n;
        Ok(n)
    }
}

impl<R: Read, P> Read for BufReader<R, P> {
    fn read(&mut self, out: &mut [u8]) -> io::Result<usize> {
        let n = self.fill_buf()?.read(out)?;
        self.consume(n);
        Ok(n)
    }
}

impl<R: Read, P> BufRead for BufReader<R, P> {
    fn fill_buf(&mut self) -> io::Result<&[u8]> {
        if self.from == self.to {
            self.from = 0;
            self.to = 0;
            self.read_into_buf()?;
        }
        Ok(self.buffer())
    }

    fn consume(&mut self, n: usize) {
        self.from = self.to.min(self.from + n);
    }
}

impl<R: Seek, P> Seek for BufReader<R, P> {
    /// Drops the bytes held and moves the source. The comparison seeks from the start only.
    fn seek(&mut self, to: SeekFrom) -> io::Result<u64> {
        self.from = 0;
        self.to = 0;
        self.source.seek(to)
    }
}
