//! The call `free_inputs`: a term in, the inputs that occur free in it or a refusal out.

use crate::free_inputs as library;
use crate::refused::Refused;
use crate::Tables;

/// The inputs that occur free in a term: those that some variable of it names, be it in a branch
/// that is never taken or a function that is never applied.
#[derive(Clone, Copy, Debug, PartialEq, Eq)]
pub struct FreeInputs {
    /// A mark for each of 256 inputs: input 0 is the highest bit of the first word, input 64 that
    /// of the second.
    pub marks: [u64; 4],
    /// How many marks are set.
    pub count: u32,
}

impl FreeInputs {
    /// Whether this input is marked; an input over 255 is not.
    pub fn contains(&self, input: usize) -> bool {
        let word = self.marks.get(input / 64);
        word.is_some_and(|word| word << (input % 64) >> 63 == 1)
    }
}

/// The inputs that occur free in a term of up to 8,192 words; refused with 1 to 9.
pub fn free_inputs(tables: Tables, term: &[u64]) -> Result<FreeInputs, Refused> {
    let answer = library::free_inputs(tables.types, tables.calls, tables.inputs, term);
    match answer.refusal {
        0 => Ok(FreeInputs {
            marks: answer.marks,
            count: answer.count,
        }),
        number => Err(Refused {
            number,
            counts: [0; 10],
        }),
    }
}
