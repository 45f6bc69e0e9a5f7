//! How an input is cut into chunks: the same plan cuts what the proved reader is fed and what the Rust's source gives to a read.

use crate::random::Random;

#[derive(Clone)]
pub enum Chunks {
    /// As much as there is.
    Whole,
    /// So many bytes each.
    Of(usize),
    /// From one byte up to so many.
    UpTo(usize, Random),
}

impl Chunks {
    /// The length of the next chunk, where so many bytes are left.
    pub fn next(&mut self, left: usize) -> usize {
        let n = match self {
            Chunks::Whole => left,
            Chunks::Of(n) => *n,
            Chunks::UpTo(n, random) => 1 + random.below(*n),
        };
        n.min(left)
    }

    /// A plan for the run with this number.
    pub fn plan(number: u64, most: usize) -> Chunks {
        match number % 4 {
            0 => Chunks::Whole,
            1 => Chunks::Of(1),
            2 => Chunks::Of(1 + (number / 4) as usize % most.max(1)),
            _ => Chunks::UpTo(most.max(1), Random::new(number)),
        }
    }
}
