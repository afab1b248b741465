//! The public calls on lent word slices: check, is_normal and normalize. `free_inputs.rs` has one
//! more.

use crate::checks::{examine_in, Checked, Refusal, LONGEST_TO_EXAMINE, LONGEST_TO_NORMALIZE};
use crate::coding::encode;
use crate::deep_stack::with_deep_stack;
use crate::dialect::Dialect;
use crate::normal_form::no_rule_fits;
use crate::reduction::{walk, Counts};
use crate::settings::Settings;

/// The largest capacity (the paper's room).
pub const LARGEST_CAPACITY: usize = 8192;

/// The answer of `check`; refusal 0 is acceptance.
#[derive(Clone, Copy, Debug, PartialEq, Eq)]
pub struct CheckAnswer {
    pub refusal: u32,
    pub type_number: u32,
}

/// The answer of `is_normal`; refusal 0 is acceptance.
#[derive(Clone, Copy, Debug, PartialEq, Eq)]
pub struct NormalAnswer {
    pub refusal: u32,
    pub normal: bool,
}

/// The answer of `normalize`; refusal 0 is acceptance.
#[derive(Clone, Copy, Debug, PartialEq, Eq)]
pub struct Answer {
    pub refusal: u32,
    pub type_number: u32,
    pub length: usize,
    pub counts: Counts,
}

impl Answer {
    /// A refusal after these steps.
    pub fn refused(refusal: Refusal, counts: Counts) -> Answer {
        Answer {
            refusal: refusal.number(),
            type_number: 0,
            length: 0,
            counts,
        }
    }
}

/// The signature of `normalize`, which other implementations share.
pub type Normalize =
    fn(&[u64], &[u64], &[u64], &[u64], Settings, &mut [u64], &mut [u64], &mut [u64]) -> Answer;

/// The type check.
pub fn check(types: &[u64], calls: &[u64], inputs: &[u64], term: &[u64]) -> CheckAnswer {
    Dialect::CURRENT.check(types, calls, inputs, term)
}

/// The test for normal forms (the paper's flat test).
pub fn is_normal(types: &[u64], calls: &[u64], inputs: &[u64], term: &[u64]) -> NormalAnswer {
    Dialect::CURRENT.is_normal(types, calls, inputs, term)
}

/// Normalizes (the paper's flattens). The normal form fills the front of `output`, which is left
/// unchanged on a refusal; the scratch buffers (the paper's work slices) are zero afterwards.
#[allow(clippy::too_many_arguments)]
pub fn normalize(
    types: &[u64],
    calls: &[u64],
    inputs: &[u64],
    term: &[u64],
    settings: Settings,
    output: &mut [u64],
    first_scratch: &mut [u64],
    second_scratch: &mut [u64],
) -> Answer {
    let buffers = [output, first_scratch, second_scratch];
    Dialect::CURRENT.normalize(types, calls, inputs, term, settings, buffers)
}

/// The calls in any dialect.
impl Dialect {
    pub fn check(self, types: &[u64], calls: &[u64], inputs: &[u64], term: &[u64]) -> CheckAnswer {
        with_deep_stack(
            || match examine_in(self, types, calls, inputs, term, LONGEST_TO_EXAMINE) {
                Ok(checked) => CheckAnswer {
                    refusal: 0,
                    type_number: checked.type_number,
                },
                Err(refusal) => CheckAnswer {
                    refusal: refusal.number(),
                    type_number: 0,
                },
            },
        )
    }

    pub fn is_normal(
        self,
        types: &[u64],
        calls: &[u64],
        inputs: &[u64],
        term: &[u64],
    ) -> NormalAnswer {
        with_deep_stack(
            || match examine_in(self, types, calls, inputs, term, LONGEST_TO_EXAMINE) {
                Ok(checked) => NormalAnswer {
                    refusal: 0,
                    normal: no_rule_fits(&checked.tables, &checked.term),
                },
                Err(refusal) => NormalAnswer {
                    refusal: refusal.number(),
                    normal: false,
                },
            },
        )
    }

    pub fn normalize(
        self,
        types: &[u64],
        calls: &[u64],
        inputs: &[u64],
        term: &[u64],
        settings: Settings,
        [output, first_scratch, second_scratch]: [&mut [u64]; 3],
    ) -> Answer {
        let capacity = output
            .len()
            .min(first_scratch.len())
            .min(second_scratch.len())
            .min(LARGEST_CAPACITY);
        let result = with_deep_stack(|| {
            let checked = examine_in(self, types, calls, inputs, term, LONGEST_TO_NORMALIZE);
            normal_form_words(checked, settings, capacity)
        });
        first_scratch.fill(0);
        second_scratch.fill(0);
        match result {
            Ok((answer, words)) => {
                output[..words.len()].copy_from_slice(&words);
                answer
            }
            Err(answer) => answer,
        }
    }
}

/// The answer with the normal form's words, or the refusing answer.
fn normal_form_words(
    checked: Result<Checked, Refusal>,
    settings: Settings,
    capacity: usize,
) -> Result<(Answer, Vec<u64>), Answer> {
    let checked = checked.map_err(|refusal| Answer::refused(refusal, [0; 10]))?;
    let (normal_form, counts) = walk(&checked.tables, checked.term, settings, capacity)
        .map_err(|stopped| Answer::refused(stopped.refusal, stopped.counts))?;
    let words = encode(&normal_form);
    let answer = Answer {
        refusal: 0,
        type_number: checked.type_number,
        length: words.len(),
        counts,
    };
    Ok((answer, words))
}
