//! Which inputs occur free in a term: an input has a mark exactly if some variable names it.

use crate::checks::{examine_in, Refusal, LONGEST_TO_EXAMINE};
use crate::deep_stack::with_deep_stack;
use crate::dialect::Dialect;
use crate::term::Term;
use std::collections::BTreeSet;

/// A mark for each of 256 inputs: input 0 is the highest bit of the first word, input 64 that of
/// the second.
pub type Marks = [u64; 4];

/// The answer of `free_inputs`; refusal 0 is acceptance.
#[derive(Clone, Copy, Debug, PartialEq, Eq)]
pub struct FreeInputs {
    pub refusal: u32,
    pub marks: Marks,
    /// How many marks are set.
    pub count: u32,
}

impl FreeInputs {
    /// A refusal: no mark is set.
    pub fn refused(refusal: Refusal) -> FreeInputs {
        FreeInputs {
            refusal: refusal.number(),
            marks: [0; 4],
            count: 0,
        }
    }
}

/// The signature of `free_inputs`, which other implementations share.
pub type FindFreeInputs = fn(&[u64], &[u64], &[u64], &[u64]) -> FreeInputs;

/// The inputs that occur free in the term.
pub fn free_inputs(types: &[u64], calls: &[u64], inputs: &[u64], term: &[u64]) -> FreeInputs {
    Dialect::CURRENT.free_inputs(types, calls, inputs, term)
}

impl Dialect {
    /// The same in any dialect.
    pub fn free_inputs(
        self,
        types: &[u64],
        calls: &[u64],
        inputs: &[u64],
        term: &[u64],
    ) -> FreeInputs {
        with_deep_stack(
            || match examine_in(self, types, calls, inputs, term, LONGEST_TO_EXAMINE) {
                Ok(checked) => {
                    let read = inputs_read(&checked.term);
                    FreeInputs {
                        refusal: 0,
                        marks: marks(&read),
                        count: read.len() as u32,
                    }
                }
                Err(refusal) => FreeInputs::refused(refusal),
            },
        )
    }
}

/// The inputs that some variable of the term names, whether or not a run gets there.
pub fn inputs_read(term: &Term) -> BTreeSet<u32> {
    let mut read = BTreeSet::new();
    collect_inputs(term, 0, &mut read);
    read
}

/// Under `binders` binders, input i is the variable with the number `binders + i`.
fn collect_inputs(term: &Term, binders: u32, read: &mut BTreeSet<u32>) {
    if let Term::Variable(number) = term {
        if *number >= binders {
            read.insert(number - binders);
        }
    }
    for (role, part) in term.parts() {
        collect_inputs(part, binders + role.binders(), read);
    }
}

/// The marks of these inputs, which are below 256.
fn marks(inputs: &BTreeSet<u32>) -> Marks {
    let mut marks = [0; 4];
    for input in inputs {
        marks[*input as usize / 64] |= 1 << (63 - input % 64);
    }
    marks
}
