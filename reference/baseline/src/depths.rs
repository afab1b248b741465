//! The number of binders around each word of a part, word by word and without branches on kinds.

use crate::nodes::{kind, number, number_of_arguments};
use oracle::words::*;

/// More than the parts of an 8,192-word term; a power of two, so that a mask bounds an index.
const MOST_PENDING: usize = 1 << 14;
const MASK: usize = MOST_PENDING - 1;

/// How a node's parts stand to it: how many there are, and the binders around each, from the last
/// part to the first.
#[derive(Clone, Copy)]
struct Parts {
    count: u8,
    binders: [u8; 3],
}

const fn parts(count: u8, binders: [u8; 3]) -> Parts {
    Parts { count, binders }
}

/// The parts by kind, none unless said; how many a call has is in its signature, and the kinds over 11 do
/// not occur.
const PARTS: [Parts; 16] = {
    let mut table = [parts(0, [0, 0, 0]); 16];
    table[FUNCTION as usize] = parts(1, [1, 0, 0]);
    table[APPLICATION as usize] = parts(2, [0, 0, 0]);
    table[LET as usize] = parts(2, [1, 0, 0]);
    table[PAIR as usize] = parts(2, [0, 0, 0]);
    table[FIRST as usize] = parts(1, [0, 0, 0]);
    table[SECOND as usize] = parts(1, [0, 0, 0]);
    table[LEFT as usize] = parts(1, [0, 0, 0]);
    table[RIGHT as usize] = parts(1, [0, 0, 0]);
    table[CASE as usize] = parts(3, [1, 1, 0]);
    table
};

/// The number of parts of the node with this word.
#[inline(always)]
pub fn part_count(word: u64, calls: &[u64]) -> usize {
    match kind(word) {
        CALL => number_of_arguments(calls[number(word)]),
        kind => PARTS[kind as usize].count as usize,
    }
}

/// Space for the depths of the parts that are still to come.
pub struct Depths {
    pending: Box<[u32; MOST_PENDING]>,
}

impl Depths {
    pub fn new() -> Depths {
        let pending = vec![0; MOST_PENDING].into_boxed_slice();
        Depths {
            pending: pending.try_into().expect("the length is that of the type"),
        }
    }

    /// Begins with a part around which this many binders count.
    pub fn begin(&mut self, depth: u32) -> Cursor<'_> {
        self.pending[0] = depth;
        Cursor {
            pending: &mut self.pending,
            open: 1,
        }
    }
}

/// The depths of the parts to come, the next one last.
pub struct Cursor<'a> {
    pending: &'a mut [u32; MOST_PENDING],
    open: usize,
}

impl Cursor<'_> {
    /// Whether the part has ended.
    #[inline(always)]
    pub fn is_done(&self) -> bool {
        self.open == 0
    }

    /// Passes over the part's next word; answers its depth.
    #[inline(always)]
    pub fn pass(&mut self, word: u64, calls: &[u64]) -> u32 {
        let last = self.open - 1;
        let depth = self.pending[last & MASK];
        let [third, second, first] = PARTS[kind(word) as usize].binders;
        self.pending[last & MASK] = depth + u32::from(third);
        self.pending[(last + 1) & MASK] = depth + u32::from(second);
        self.pending[(last + 2) & MASK] = depth + u32::from(first);
        self.open = last + part_count(word, calls);
        depth
    }
}
