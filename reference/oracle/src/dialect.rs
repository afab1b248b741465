//! Dialects: the words that there are, which each request may add to.

use crate::words::{read_count, CASE, SUM, UNIT, UNIT_TYPE};

/// The checks 2, 4 and 6 refuse the words that a dialect does not have; all else is the same in each.
#[derive(Clone, Copy, Debug, PartialEq, Eq, PartialOrd, Ord)]
pub enum Dialect {
    /// Paper 01.
    Base,
    /// The unit type and its value are there too (request P2).
    Units,
    /// There are calls that act too (request P3).
    Acting,
}

impl Dialect {
    /// The dialect of the public calls.
    pub const CURRENT: Dialect = Dialect::Acting;

    /// The last kinds of type words and of term words.
    fn last_kinds(self) -> (u64, u64) {
        match self {
            Dialect::Base => (SUM, CASE),
            Dialect::Units | Dialect::Acting => (UNIT_TYPE, UNIT),
        }
    }

    /// Whether type words of this kind are known.
    pub fn has_type_kind(self, kind: u64) -> bool {
        kind <= self.last_kinds().0
    }

    /// Whether call words with this count are known.
    pub fn has_count(self, count: u64) -> bool {
        read_count(count).is_some_and(|(_, acts)| !acts || self >= Dialect::Acting)
    }

    /// Whether term words of this kind are known.
    pub fn has_term_kind(self, kind: u64) -> bool {
        kind <= self.last_kinds().1
    }
}
