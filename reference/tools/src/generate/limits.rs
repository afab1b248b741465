//! What normalize is lent besides the tables, and what a walk needs of it.

use super::steps::steps_of;
use super::Sample;
use crate::random::Random;
use oracle::api::LARGEST_CAPACITY;
use oracle::settings::Settings;

/// The settings, and the lengths of the output and the two scratch buffers.
#[derive(Clone, Copy, Debug, PartialEq, Eq)]
pub struct Limits {
    pub settings: Settings,
    pub lengths: [usize; 3],
}

impl Limits {
    /// What the program lends.
    pub const OF_PROGRAM: Limits = Limits {
        settings: Settings::no_ceilings(1_000_000),
        lengths: [LARGEST_CAPACITY; 3],
    };

    /// This budget and no ceilings, and three random lengths of which the shortest is the capacity.
    pub fn with_capacity(random: &mut Random, budget: u32, capacity: usize) -> Limits {
        Limits::with_settings(random, Settings::no_ceilings(budget), capacity)
    }

    /// These settings, and three random lengths of which the shortest is the capacity.
    pub fn with_settings(random: &mut Random, settings: Settings, capacity: usize) -> Limits {
        let mut lengths = [0; 3].map(|_: usize| capacity + random.below(30));
        lengths[random.below(3)] = capacity;
        Limits { settings, lengths }
    }

    /// The program's buffers, and this budget without ceilings.
    pub fn with_budget(budget: u32) -> Limits {
        Limits {
            settings: Settings::no_ceilings(budget),
            ..Limits::OF_PROGRAM
        }
    }
}

/// The number of steps of a walk and its longest term.
#[derive(Clone, Copy, Debug, PartialEq, Eq)]
pub struct Needs {
    pub steps: u32,
    pub capacity: usize,
}

/// What the sample's walk needs; `None` if it is refused, or takes more than `most_steps`.
pub fn needs(sample: &Sample, most_steps: u32) -> Option<Needs> {
    let steps = steps_of(sample, most_steps)?;
    Some(Needs {
        steps: steps.rules.len() as u32,
        capacity: steps.longest(),
    })
}

/// What the sample's walk needs, one step or one word less, and more of both; nothing if it is refused
/// or takes more than `most_steps`.
pub fn near_needs(random: &mut Random, sample: &Sample, most_steps: u32) -> Vec<Limits> {
    let Some(Needs { steps, capacity }) = needs(sample, most_steps) else {
        return Vec::new();
    };
    let mut limits = Vec::new();
    for (fewer_steps, fewer_words) in [(0, 0), (1, 0), (0, 1), (1, 1)] {
        let budget = steps.saturating_sub(fewer_steps);
        limits.push(Limits::with_capacity(
            random,
            budget,
            capacity - fewer_words,
        ));
    }
    limits.push(Limits::with_capacity(random, steps + 5, capacity + 9));
    limits
}
