//! What all public calls answer in a dialect.

use oracle::api::{Answer, CheckAnswer, NormalAnswer};
use oracle::dialect::Dialect;
use oracle::free_inputs::FreeInputs;
use std::collections::BTreeMap;
use tools::generate::limits::Limits;
use tools::generate::Sample;
use tools::random::Random;

/// The answers, and normalize's buffers afterwards.
#[derive(Debug, PartialEq)]
pub struct Outcome {
    pub checked: CheckAnswer,
    pub normal: NormalAnswer,
    pub normalized: Answer,
    pub buffers: [Vec<u64>; 3],
    pub read: FreeInputs,
    pub response: Vec<u8>,
}

pub fn outcome(dialect: Dialect, sample: &Sample, limits: Limits) -> Outcome {
    let mut buffers = limits.lengths.map(|length| vec![9; length]);
    Outcome {
        checked: sample.check_in(dialect),
        normal: sample.is_normal_in(dialect),
        normalized: sample.normalize_in(dialect, limits.settings, &mut buffers),
        buffers,
        read: sample.free_inputs_in(dialect),
        response: dialect.respond(&sample.bundle()),
    }
}

impl Outcome {
    /// The refusal by 1 to 9, which is the same for all calls on tables.
    pub fn refusal(&self) -> u32 {
        let refusal = self.checked.refusal;
        assert_eq!(self.normal.refusal, refusal);
        assert_eq!(self.read.refusal, refusal);
        if refusal != 0 {
            assert_eq!(self.normalized.refusal, refusal);
        }
        refusal
    }
}

pub fn random_limits(random: &mut Random) -> Limits {
    let budget = random.below(60) as u32;
    let capacity = random.between(1, 200);
    Limits::with_capacity(random, budget, capacity)
}

/// Counts the pairs of a refusal in one dialect and in the next.
pub type Pairs = BTreeMap<(u32, u32), usize>;
