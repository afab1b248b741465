//! Term words by their kind: their fields, which parts are values, where a part ends.

use crate::depths::part_count;
use oracle::words::*;

const NUMBER_MASK: u64 = (1 << 30) - 1;

/// What one is in a term word's number field.
pub const ONE: u64 = 1 << 30;

#[inline(always)]
pub fn kind(word: u64) -> u64 {
    word >> 60
}

/// The number of a variable or a call.
#[inline(always)]
pub fn number(word: u64) -> usize {
    (word >> 30 & NUMBER_MASK) as usize
}

/// The type of a function, pair, injection or unit.
pub fn type_number(word: u64) -> usize {
    (word & NUMBER_MASK) as usize
}

/// The number of arguments of a call word's signature: the low two bits of its count, which is
/// known.
pub fn number_of_arguments(signature: u64) -> usize {
    (signature >> 60 & 3) as usize
}

/// Whether a call word's signature is that of a call that acts: the high bit of its count, which is
/// known.
pub fn acts(signature: u64) -> bool {
    signature >> 63 == 1
}

/// The number of parts in operand positions; they come first.
pub fn operand_count(word: u64, calls: &[u64]) -> usize {
    match kind(word) {
        FUNCTION | LET => 0,
        CASE => 1,
        _ => part_count(word, calls),
    }
}

/// Where the part that starts here ends.
pub fn part_end(words: &[u64], start: usize, calls: &[u64]) -> usize {
    let mut at = start;
    let mut open = 1;
    while open > 0 {
        open = open + part_count(words[at], calls) - 1;
        at += 1;
    }
    at
}

/// Where the value that starts here ends; `None` if the part is a computation.
#[inline]
pub fn value_end(words: &[u64], start: usize, calls: &[u64]) -> Option<usize> {
    let mut at = start;
    let mut open = 1;
    while open > 0 {
        match kind(words[at]) {
            VARIABLE | UNIT => {
                open -= 1;
                at += 1;
            }
            FUNCTION => {
                open -= 1;
                at = part_end(words, at, calls);
            }
            PAIR => {
                open += 1;
                at += 1;
            }
            LEFT | RIGHT => at += 1,
            _ => return None,
        }
    }
    Some(at)
}

/// Whether a part that starts with this word is a value, if each operand in it is one.
pub fn is_value_kind(word: u64) -> bool {
    matches!(kind(word), VARIABLE | FUNCTION | PAIR | LEFT | RIGHT | UNIT)
}
