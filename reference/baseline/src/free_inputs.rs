//! Which inputs occur free in a term: the checks, then one pass over the words.

use crate::checks::examine;
use crate::depths::Depths;
use crate::nodes::{kind, number};
use oracle::checks::LONGEST_TO_EXAMINE;
use oracle::free_inputs::{FreeInputs, Marks};
use oracle::words::VARIABLE;

/// The inputs that occur free in the term.
pub fn free_inputs(types: &[u64], calls: &[u64], inputs: &[u64], term: &[u64]) -> FreeInputs {
    match examine(types, calls, inputs, term, LONGEST_TO_EXAMINE) {
        Ok(_) => {
            let marks = marks(term, calls);
            FreeInputs {
                refusal: 0,
                marks,
                count: marks.iter().map(|word| word.count_ones()).sum(),
            }
        }
        Err(refusal) => FreeInputs::refused(refusal),
    }
}

/// A mark for each input that some variable names; no variable names an input over 255.
fn marks(term: &[u64], calls: &[u64]) -> Marks {
    let mut marks = [0; 4];
    let mut depths = Depths::new();
    let mut cursor = depths.begin(0);
    for &word in term {
        let depth = cursor.pass(word, calls) as usize;
        if kind(word) == VARIABLE && number(word) >= depth {
            let input = number(word) - depth;
            marks[input / 64] |= 1 << (63 - input % 64);
        }
    }
    marks
}
