//! The calls on words beside those on trees.

use oracle::api::{self, Answer, Normalize};
use oracle::free_inputs::free_inputs;
use tools::generate::limits::Limits;
use tools::generate::Sample;

/// The answer, and the output and scratch buffers afterwards.
pub fn outcome(normalize: Normalize, sample: &Sample, limits: Limits) -> (Answer, [Vec<u64>; 3]) {
    let mut buffers = limits.lengths.map(|length| vec![9; length]);
    let answer = sample.normalize(normalize, limits.settings, &mut buffers);
    (answer, buffers)
}

/// Asserts that both implementations of normalize and of free_inputs agree; answers the answer of
/// normalize.
pub fn agree(sample: &Sample, limits: Limits, name: &str) -> Answer {
    let read = sample.free_inputs(free_inputs);
    assert_eq!(sample.free_inputs(baseline::free_inputs), read, "{name}");
    let on_trees = outcome(api::normalize, sample, limits);
    let on_words = outcome(baseline::normalize, sample, limits);
    assert_eq!(on_words, on_trees, "{name}");
    on_trees.0
}
