//! Both implementations on random samples without ceilings.

use crate::compared::agree;
use oracle::api::Answer;
use tools::generate::each::{each_sample, Make};
use tools::generate::limits::Limits;

/// Asserts that both agree on random samples, of which each rule has more than 1,000 steps.
pub fn agree_on_random_terms(make: Make, seed: u64, count: usize) {
    let mut answers = Vec::new();
    each_sample(make, seed, count, 150, |random, sample| {
        let limits = Limits::with_capacity(random, 5000, 1000);
        answers.push(agree(&sample, limits, "random"));
    });
    let steps = totals(&answers);
    assert!(steps.iter().all(|&total| total > 1000), "{steps:?}");
}

/// The steps of each rule that the answers count together.
fn totals(answers: &[Answer]) -> [u32; 10] {
    std::array::from_fn(|rule| answers.iter().map(|answer| answer.counts[rule]).sum())
}
