//! The running entry: one entry of a product by method 1, taken pair by pair.
use crate::calls::{coupling_running_amounts, coupling_running_start, coupling_running_take};
use crate::Refusal;

const WORDS: usize = 11;
const LOWER: usize = 0;
const UPPER: usize = 1;
const PAIRS: usize = 2;
const AMOUNTS: usize = 3;

/// A cell as it was gauged: its bounds, as patterns, and its wear class.
#[derive(Clone, Copy, Debug, PartialEq, Eq)]
pub struct Gauged {
    /// The lower bound.
    pub lower: u32,
    /// The upper bound.
    pub upper: u32,
    /// 0 to 7.
    pub class: u32,
}

/// One entry of a product by method 1 while its linkages are gauged: pairs of cells are taken one after another, and the range so
/// far can be read after each. It is the entry over all pairs taken so far, each widened by the amounts that were in force when it
/// was taken: the patterns that [`product`](crate::product) gives by [`Method::Classical`](crate::Method::Classical) for the row of
/// the first cells and the column of the second ones, as widened. Whatever numbers are picked, one from each widened cell, the sum
/// of the products lies in the range. Each refusal has matrix, row and column 0 and leaves the running entry as it was.
#[derive(Clone, Copy, Debug, PartialEq, Eq)]
pub struct Running {
    words: [u32; WORDS],
}

// SAFETY, of all three calls: an array and a slice are never null and valid for their lengths, the array is borrowed alone, and no
// pointer is kept.

impl Running {
    /// The range [0, 0], no pairs, and the wear amounts that the classes have in [`read`](crate::read).
    pub fn new() -> Running {
        let mut words = [0; WORDS];
        // Refused is a shorter array alone.
        unsafe { coupling_running_start(words.as_mut_ptr(), WORDS) };
        Running { words }
    }

    /// Takes a pair of cells, `a` of the row and `b` of the column, each widened by the amount in force for its class. Refused, in
    /// this order: 1 where [`PAIRS_MAX`](crate::PAIRS_MAX) pairs were taken already; 10, 3, 4 and 5, which is for the widened cell,
    /// of `a`; the same of `b`; 5 where a step of method 1 is too large.
    pub fn take(&mut self, a: Gauged, b: Gauged) -> Result<(), Refusal> {
        let value = self.words.as_mut_ptr();
        let code = unsafe { coupling_running_take(value, WORDS, a.lower, a.upper, a.class, b.lower, b.upper, b.class) };
        Refusal::unless(code).map(|_| ())
    }

    /// Exchanges the wear amounts for those of a load, as [`read_with`](crate::read_with) takes it and refuses it: 6, 3, 13. They
    /// hold for the pairs that follow; pairs that were taken before keep theirs.
    pub fn exchange(&mut self, load: &[u8]) -> Result<(), Refusal> {
        let code = unsafe { coupling_running_amounts(self.words.as_mut_ptr(), WORDS, load.as_ptr(), load.len()) };
        Refusal::unless(code).map(|_| ())
    }

    /// The lower bound so far, a pattern.
    pub fn lower(&self) -> u32 {
        self.words[LOWER]
    }

    /// The upper bound so far, a pattern.
    pub fn upper(&self) -> u32 {
        self.words[UPPER]
    }

    /// How many pairs were taken.
    pub fn pairs(&self) -> u32 {
        self.words[PAIRS]
    }

    /// The wear amounts in force, as patterns: that of class c is at c.
    pub fn amounts(&self) -> [u32; WORDS - AMOUNTS] {
        std::array::from_fn(|class| self.words[AMOUNTS + class])
    }
}

impl Default for Running {
    fn default() -> Running {
        Running::new()
    }
}
