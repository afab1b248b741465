//! The public call, with the signature and the outcome of the tree implementation's.

use crate::checks::examine;
use crate::rewrite::Buffers;
use crate::walk::{walk, Record};
use oracle::api::{Answer, LARGEST_CAPACITY};
use oracle::checks::{Refusal, LONGEST_TO_NORMALIZE};
use oracle::settings::Settings;

/// Normalizes. The normal form fills the front of `output`, which is left unchanged on a refusal;
/// the scratch buffers are zero afterwards.
#[allow(clippy::too_many_arguments)]
pub fn normalize(
    types: &[u64],
    calls: &[u64],
    inputs: &[u64],
    term: &[u64],
    settings: Settings,
    output: &mut [u64],
    first_scratch: &mut [u64],
    second_scratch: &mut [u64],
) -> Answer {
    let buffers = [output, first_scratch, second_scratch];
    normalize_and_measure(types, calls, inputs, term, settings, buffers).0
}

/// The same, and the length of the longest term on the walk.
pub fn normalize_and_measure(
    types: &[u64],
    calls: &[u64],
    inputs: &[u64],
    term: &[u64],
    settings: Settings,
    [output, first_scratch, second_scratch]: [&mut [u64]; 3],
) -> (Answer, usize) {
    let capacity = output
        .len()
        .min(first_scratch.len())
        .min(second_scratch.len())
        .min(LARGEST_CAPACITY);
    let mut record = Record::default();
    let mut buffers = Buffers {
        current: first_scratch,
        length: term.len(),
        stretch: second_scratch,
    };
    let checked = examine(types, calls, inputs, term, LONGEST_TO_NORMALIZE);
    let result = checked.and_then(|type_number| {
        if term.len() > capacity {
            return Err(Refusal::Capacity);
        }
        buffers.current[..term.len()].copy_from_slice(term);
        walk(&mut buffers, calls, settings, capacity, &mut record)?;
        Ok(type_number)
    });
    let answer = match result {
        Ok(type_number) => {
            let normal_form = buffers.term();
            output[..normal_form.len()].copy_from_slice(normal_form);
            Answer {
                refusal: 0,
                type_number,
                length: normal_form.len(),
                counts: record.counts,
            }
        }
        Err(refusal) => Answer::refused(refusal, record.counts),
    };
    first_scratch.fill(0);
    second_scratch.fill(0);
    (answer, record.longest)
}
