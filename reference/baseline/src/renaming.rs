//! Renaming of variables and substitution, from words to words.

use crate::depths::Depths;
use crate::nodes::{kind, number, ONE};
use oracle::words::VARIABLE;

/// Whether a word is a variable that names something outside so many binders.
#[inline(always)]
fn is_outside(word: u64, depth: u32) -> bool {
    kind(word) == VARIABLE && number(word) >= depth as usize
}

/// Adds one to each variable of the part that names something outside `cutoff` binders.
pub fn raise(part: &mut [u64], cutoff: u32, calls: &[u64], depths: &mut Depths) {
    let mut cursor = depths.begin(cutoff);
    for word in part {
        let depth = cursor.pass(*word, calls);
        *word += ONE * u64::from(is_outside(*word, depth));
    }
}

/// Takes one from each variable of a body that names something outside its binder, which goes.
pub fn lower(body: &mut [u64], calls: &[u64], depths: &mut Depths) {
    let mut cursor = depths.begin(1);
    for word in body {
        let depth = cursor.pass(*word, calls);
        *word -= ONE * u64::from(is_outside(*word, depth));
    }
}

/// How often the variable of the binder over the body that starts here is used, and where the
/// body ends.
pub fn count_uses(
    words: &[u64],
    start: usize,
    calls: &[u64],
    depths: &mut Depths,
) -> (usize, usize) {
    let mut uses = 0;
    let mut at = start;
    let mut cursor = depths.begin(0);
    while !cursor.is_done() {
        let word = words[at];
        let depth = cursor.pass(word, calls);
        uses += usize::from(word == u64::from(depth) * ONE);
        at += 1;
    }
    (uses, at)
}

/// Substitutes values for variables; it has depths for the body and for the value.
pub struct Substitution {
    body_depths: Depths,
    value_depths: Depths,
}

impl Substitution {
    pub fn new() -> Substitution {
        Substitution {
            body_depths: Depths::new(),
            value_depths: Depths::new(),
        }
    }

    /// Writes the body, with the value for the variable of its binder, to the front of `target`;
    /// answers how many words that are.
    pub fn write(
        &mut self,
        target: &mut [u64],
        body: &[u64],
        value: &[u64],
        calls: &[u64],
    ) -> usize {
        let mut length = 0;
        let mut cursor = self.body_depths.begin(0);
        for &word in body {
            let depth = cursor.pass(word, calls);
            if word == u64::from(depth) * ONE {
                let end = length + value.len();
                copy_value(
                    &mut target[length..end],
                    value,
                    depth,
                    calls,
                    &mut self.value_depths,
                );
                length = end;
            } else {
                target[length] = word - ONE * u64::from(is_outside(word, depth));
                length += 1;
            }
        }
        length
    }
}

/// Copies a value to under this many binders more.
fn copy_value(target: &mut [u64], value: &[u64], binders: u32, calls: &[u64], depths: &mut Depths) {
    if binders == 0 {
        target.copy_from_slice(value);
        return;
    }
    let mut cursor = depths.begin(0);
    for (copy, &word) in target.iter_mut().zip(value) {
        let depth = cursor.pass(word, calls);
        *copy = word + u64::from(binders) * ONE * u64::from(is_outside(word, depth));
    }
}
