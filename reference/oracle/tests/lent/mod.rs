//! The call with buffers of these lengths.

use oracle::api::{normalize, Answer};
use tools::generate::limits::Limits;
use tools::generate::Sample;

/// The answer, and the output and scratch buffers afterwards, which held 9s.
pub fn outcome(sample: &Sample, limits: Limits) -> (Answer, [Vec<u64>; 3]) {
    let mut buffers = limits.lengths.map(|length| vec![9; length]);
    let answer = sample.normalize(normalize, limits.settings, &mut buffers);
    (answer, buffers)
}
