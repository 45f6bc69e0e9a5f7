//! The proved library, through its C interface (crates/c_interface/c_interface.h).

use crate::chunks::Chunks;

pub const STATE: usize = 14;
pub const VALUES: usize = 6;

pub const DONE: usize = 0;
pub const WINDOW_LIMIT: usize = 7;
pub const INVALID_START: usize = 8;
pub const INVALID_SEPARATOR: usize = 9;
pub const UNEQUAL_LENGTHS: usize = 10;
pub const UNEXPECTED_END: usize = 11;
pub const MORE: usize = 15;
pub const END: usize = 16;
pub const FEED_FROM: usize = 17;
pub const ABSENT: usize = 18;

extern "C" {
    fn fq_open(state: *mut usize, n: usize, window: usize) -> usize;
    fn fq_feed(state: *mut usize, n: usize, values: *mut usize, m: usize, window: *mut u8, w: usize, chunk: *const u8, k: usize) -> usize;
    fn fq_finish(state: *mut usize, n: usize, values: *mut usize, m: usize, window: *const u8, w: usize) -> usize;
    fn fq_next(state: *mut usize, n: usize, values: *mut usize, m: usize, window: *const u8, w: usize) -> usize;
    fn fq_seek(state: *mut usize, n: usize, values: *mut usize, m: usize, window: *const u8, w: usize, line: u64, byte: u64) -> usize;
    fn fq_position(state: *const usize, n: usize, values: *mut usize, m: usize) -> usize;
    fn fq_read_record_set(state: *mut usize, n: usize, values: *mut usize, m: usize, window: *const u8, w: usize, table: *mut usize, t: usize) -> usize;
    fn fq_read_record_set_exact(
        state: *mut usize, n: usize, values: *mut usize, m: usize, window: *const u8, w: usize, table: *mut usize, t: usize, wanted: usize,
    ) -> usize;
    fn fq_view(
        values: *mut usize, m: usize, window: *const u8, w: usize, which: usize, start: usize, seq: usize, sep: usize, qual: usize, end: usize,
    ) -> usize;
    fn fq_write_to(
        values: *mut usize, m: usize, out: *mut u8, o: usize, at: usize, head: *const u8, h: usize, seq: *const u8, s: usize, qual: *const u8, q: usize,
    ) -> usize;
    fn fq_write_parts(
        values: *mut usize, m: usize, out: *mut u8, o: usize, at: usize, id: *const u8, i: usize, desc: *const u8, d: usize, given: bool,
        seq: *const u8, s: usize, qual: *const u8, q: usize,
    ) -> usize;
    fn fq_write_unchanged(
        values: *mut usize, m: usize, out: *mut u8, o: usize, at: usize, window: *const u8, w: usize,
        start: usize, seq: usize, sep: usize, qual: usize, end: usize,
    ) -> usize;
}

/// A record's five numbers, as the table has them.
pub type Five = [usize; 5];

#[derive(Clone, Copy, PartialEq)]
pub enum View {
    Head,
    Seq,
    Qual,
    Id,
    Desc,
}

/// A reader over a window of its own, which is fed from an input.
pub struct Proved<'a> {
    pub input: &'a [u8],
    pub window: Vec<u8>,
    pub state: [usize; STATE],
    pub values: [usize; VALUES],
    chunks: Chunks,
}

impl<'a> Proved<'a> {
    pub fn open(input: &'a [u8], window: usize, chunks: Chunks) -> Result<Proved<'a>, usize> {
        let mut state = [0; STATE];
        // SAFETY: the pointer and the length are those of one array; so for each call below.
        let code = unsafe { fq_open(state.as_mut_ptr(), STATE, window) };
        if code != DONE {
            return Err(code);
        }
        Ok(Proved { input, window: vec![b'\n'; window], state, values: [0; VALUES], chunks })
    }

    /// The number of the input's byte that is to be fed next.
    fn fed(&self) -> usize {
        self.state[10] - self.state[1] + self.state[2]
    }

    fn feed(&mut self, chunk: &[u8]) -> usize {
        unsafe {
            fq_feed(
                self.state.as_mut_ptr(), STATE, self.values.as_mut_ptr(), VALUES,
                self.window.as_mut_ptr(), self.window.len(), chunk.as_ptr(), chunk.len(),
            )
        }
    }

    fn finish(&mut self) -> usize {
        unsafe { fq_finish(self.state.as_mut_ptr(), STATE, self.values.as_mut_ptr(), VALUES, self.window.as_ptr(), self.window.len()) }
    }

    /// A request is answered: by a chunk, of which at least a byte must be taken, or by the end.
    pub fn bring(&mut self) {
        let from = self.fed();
        let left = self.input.len().saturating_sub(from);
        if left == 0 {
            assert_eq!(self.finish(), DONE, "finish was refused");
            return;
        }
        let n = self.chunks.next(left);
        assert_eq!(self.feed(&self.input[from..from + n]), DONE, "feed was refused");
        assert!(0 < self.values[0], "feed took nothing");
    }

    /// The same until the window is full or the input is at its end, as the Rust fills its buffer; the end is not noted.
    pub fn fill(&mut self) {
        loop {
            let from = self.fed();
            let left = self.input.len().saturating_sub(from);
            if left == 0 || !self.has_room() {
                return;
            }
            let n = self.chunks.next(left);
            assert_eq!(self.feed(&self.input[from..from + n]), DONE, "feed was refused");
            assert!(0 < self.values[0], "feed took nothing");
        }
    }

    /// All of the input is in the window, or was.
    pub fn at_end(&self) -> bool {
        self.input.len() <= self.fed()
    }

    /// Fewer bytes are held than the window has.
    pub fn has_room(&self) -> bool {
        self.state[2] - self.state[1] < self.window.len()
    }

    pub fn note_end(&mut self) {
        assert_eq!(self.finish(), DONE, "finish was refused");
    }

    /// The answer to one call of next.
    pub fn ask(&mut self) -> usize {
        unsafe { fq_next(self.state.as_mut_ptr(), STATE, self.values.as_mut_ptr(), VALUES, self.window.as_ptr(), self.window.len()) }
    }

    /// The next answer that is no request.
    pub fn next(&mut self) -> usize {
        loop {
            let code = self.ask();
            if code != MORE {
                return code;
            }
            self.bring();
        }
    }

    pub fn seek(&mut self, line: u64, byte: u64) -> usize {
        unsafe { fq_seek(self.state.as_mut_ptr(), STATE, self.values.as_mut_ptr(), VALUES, self.window.as_ptr(), self.window.len(), line, byte) }
    }

    pub fn position(&mut self) -> (u64, u64) {
        let mut values = [0; VALUES];
        let code = unsafe { fq_position(self.state.as_ptr(), STATE, values.as_mut_ptr(), VALUES) };
        assert_eq!(code, DONE, "position was refused");
        (values[0] as u64, values[1] as u64)
    }

    pub fn set(&mut self, table: &mut [usize]) -> usize {
        unsafe {
            fq_read_record_set(
                self.state.as_mut_ptr(), STATE, self.values.as_mut_ptr(), VALUES,
                self.window.as_ptr(), self.window.len(), table.as_mut_ptr(), table.len(),
            )
        }
    }

    pub fn set_exact(&mut self, table: &mut [usize], wanted: usize) -> usize {
        unsafe {
            fq_read_record_set_exact(
                self.state.as_mut_ptr(), STATE, self.values.as_mut_ptr(), VALUES,
                self.window.as_ptr(), self.window.len(), table.as_mut_ptr(), table.len(), wanted,
            )
        }
    }

    /// The record that next answered.
    pub fn five(&self) -> Five {
        [self.values[0], self.values[1], self.values[2], self.values[3], self.values[4]]
    }

    pub fn view(&self, which: View, r: Five) -> Option<&[u8]> {
        let mut values = [0; VALUES];
        let code = unsafe {
            fq_view(values.as_mut_ptr(), VALUES, self.window.as_ptr(), self.window.len(), which as usize, r[0], r[1], r[2], r[3], r[4])
        };
        match code {
            DONE => Some(&self.window[values[0]..values[0] + values[1]]),
            ABSENT => None,
            _ => panic!("view answered {code}"),
        }
    }

    pub fn write_unchanged(&self, out: &mut [u8], at: usize, r: Five) -> (usize, usize) {
        let mut values = [0; VALUES];
        let code = unsafe {
            fq_write_unchanged(
                values.as_mut_ptr(), VALUES, out.as_mut_ptr(), out.len(), at, self.window.as_ptr(), self.window.len(), r[0], r[1], r[2], r[3], r[4],
            )
        };
        (code, values[0])
    }
}

pub fn open(window: usize) -> usize {
    let mut state = [0; STATE];
    unsafe { fq_open(state.as_mut_ptr(), STATE, window) }
}

pub fn write_to(out: &mut [u8], at: usize, head: &[u8], seq: &[u8], qual: &[u8]) -> (usize, usize) {
    let mut values = [0; VALUES];
    let code = unsafe {
        fq_write_to(
            values.as_mut_ptr(), VALUES, out.as_mut_ptr(), out.len(), at,
            head.as_ptr(), head.len(), seq.as_ptr(), seq.len(), qual.as_ptr(), qual.len(),
        )
    };
    (code, values[0])
}

pub fn write_parts(out: &mut [u8], at: usize, id: &[u8], desc: Option<&[u8]>, seq: &[u8], qual: &[u8]) -> (usize, usize) {
    let mut values = [0; VALUES];
    let d = desc.unwrap_or(b"");
    let code = unsafe {
        fq_write_parts(
            values.as_mut_ptr(), VALUES, out.as_mut_ptr(), out.len(), at,
            id.as_ptr(), id.len(), d.as_ptr(), d.len(), desc.is_some(), seq.as_ptr(), seq.len(), qual.as_ptr(), qual.len(),
        )
    };
    (code, values[0])
}
