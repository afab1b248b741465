//! The records of the corpus: accepted and refused samples of every kind for every call.

mod accepted;
mod acting;
mod boundaries;
mod ceilings;
mod free_inputs;
mod limits;
mod refused;
mod units;

use super::records::Record;
use crate::generate::limits::{needs, Limits, Needs};
use crate::generate::terms::random_sample;
use crate::generate::{Profile, Sample};
use crate::random::Random;
use oracle::deep_stack::with_deep_stack;

/// The longest buffer lent.
const LONGEST_BUFFER: usize = 8256;
/// Walks of more steps are left out, so that no record takes long.
const MOST_STEPS: u32 = 10_000;

/// All records of the corpus; always the same.
pub fn records() -> Vec<Record> {
    with_deep_stack(|| {
        let mut contents = Contents {
            random: Random::new(2026),
            records: Vec::new(),
        };
        contents.accepted();
        contents.limits_at_their_edge();
        contents.refused();
        contents.boundaries();
        // What comes later draws numbers of its own, and the records above stay as they are.
        contents.random = Random::new(2027);
        contents.free_inputs();
        contents.random = Random::new(2028);
        contents.units();
        contents.random = Random::new(2029);
        contents.acting();
        contents.random = Random::new(2030);
        contents.ceilings();
        contents.records
    })
}

struct Contents {
    random: Random,
    records: Vec<Record>,
}

impl Contents {
    /// A record for each of the calls 0 to 3.
    fn all_calls(&mut self, sample: &Sample, limits: Limits) {
        self.respond(sample.bundle());
        self.check(sample);
        self.is_normal(sample);
        self.normalize(sample, limits);
    }

    /// A record for each of the calls 0 to 4.
    fn five_calls(&mut self, sample: &Sample, limits: Limits) {
        self.all_calls(sample, limits);
        self.free_inputs_of(sample);
    }

    fn respond(&mut self, bundle: Vec<u8>) {
        self.records.push(Record::Respond(bundle));
    }

    fn check(&mut self, sample: &Sample) {
        self.records.push(Record::Check(sample.clone()));
    }

    fn is_normal(&mut self, sample: &Sample) {
        self.records.push(Record::IsNormal(sample.clone()));
    }

    fn free_inputs_of(&mut self, sample: &Sample) {
        self.records.push(Record::FreeInputs(sample.clone()));
    }

    fn normalize(&mut self, sample: &Sample, limits: Limits) {
        let limits = Limits {
            lengths: limits.lengths.map(|length| length.min(LONGEST_BUFFER)),
            ..limits
        };
        self.records.push(Record::Normalize(sample.clone(), limits));
    }

    /// One of the calls that do not normalize, by turns.
    fn another_call(&mut self, turn: usize, sample: &Sample) {
        match turn % 3 {
            0 => self.check(sample),
            1 => self.is_normal(sample),
            _ => self.free_inputs_of(sample),
        }
    }

    /// Buffers of the length that the walk needs, one word shorter, or longer, or one step less, by
    /// turns.
    fn near_what_is_needed(&mut self, turn: usize, sample: &Sample) {
        let Some(needs) = needs(sample, MOST_STEPS) else {
            return;
        };
        let Needs { steps, capacity } = needs;
        let (steps, capacity) = match turn % 4 {
            0 => (steps, capacity),
            1 => (steps, capacity - 1),
            2 => (steps, capacity + 40),
            _ => (steps.saturating_sub(1), capacity),
        };
        let limits = Limits::with_capacity(&mut self.random, steps, capacity);
        self.normalize(sample, limits);
    }

    /// A well-typed sample whose walk is not long, and what it needs.
    fn sample(&mut self, fuel: usize) -> (Sample, Needs) {
        loop {
            let fuel = self.random.between(1, fuel);
            let profile = match self.random.below(3) {
                0 => Profile::SMALL,
                1 => Profile::of_size(fuel),
                _ => Profile::of_size(fuel).first_order(),
            };
            let sample = random_sample(&mut self.random, &profile);
            if let Some(needs) = needs(&sample, MOST_STEPS) {
                return (sample, needs);
            }
        }
    }

    /// A random budget and random buffers that suffice.
    fn ample(&mut self, needs: Needs) -> Limits {
        let budget = needs.steps + self.random.below(1000) as u32;
        let capacity = needs.capacity + self.random.below(100);
        Limits::with_capacity(&mut self.random, budget, capacity)
    }
}
