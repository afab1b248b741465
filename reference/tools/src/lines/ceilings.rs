//! Lines of `ceilings SEED COUNT`: small samples under settings with ceilings, and the answer of
//! normalize.
//!
//! One case a line, fields separated by `;`, lists of decimal words separated by spaces:
//!
//! `types;calls;inputs;term;budget;ceilings;output_length;first_scratch_length;second_scratch_length;
//! refusal;type;length;counts;normal_form`
//!
//! (in one line). There are ten ceilings and ten counts; the normal form's words are none unless it is
//! accepted. Most settings are near what the walk needs; a few samples have a fault (1 to 9).

use super::cases::{damaged_sample, lengths_with_capacity, small_sample};
use super::{spaced, Additions};
use crate::generate::ceilings::near_ceilings;
use crate::generate::limits::Limits;
use crate::generate::steps::{steps_of, Steps};
use crate::generate::Sample;
use crate::random::Random;
use oracle::api::normalize;
use oracle::settings::Settings;

/// The longest walk, and the longest term on one.
const MOST_STEPS: u32 = 200;
const LONGEST_ON_WALK: usize = 300;

/// The line of one random case.
pub fn ceilings_line(random: &mut Random, additions: Additions) -> String {
    let (sample, settings, capacity) = match random.below(10) {
        0 => (
            damaged_sample(random, additions),
            any_settings(random),
            random.between(0, 30),
        ),
        turn => {
            let (sample, steps) = walked_sample(random, additions, turn);
            let all = near_ceilings(random, &steps);
            let bounds = random.pick(&all);
            (sample, bounds.settings, bounds.capacity)
        }
    };
    let lengths = lengths_with_capacity(random, capacity);
    line(&sample, Limits { settings, lengths })
}

/// A well-typed small sample whose walk is not long, and its steps: at least two but on the first turn.
fn walked_sample(random: &mut Random, additions: Additions, turn: usize) -> (Sample, Steps) {
    let fewest = if turn == 1 { 0 } else { 2 };
    loop {
        let sample = small_sample(random, additions);
        if let Some(steps) = steps_of(&sample, MOST_STEPS) {
            if steps.rules.len() >= fewest && steps.longest() <= LONGEST_ON_WALK {
                return (sample, steps);
            }
        }
    }
}

/// A small budget, and ceilings of which many are zero.
fn any_settings(random: &mut Random) -> Settings {
    Settings {
        budget: random.between(0, 10) as u32,
        ceilings: [0; 10].map(|_: u32| *random.pick(&[0, 0, 1, 2, u32::MAX])),
    }
}

fn line(sample: &Sample, limits: Limits) -> String {
    let Limits { settings, lengths } = limits;
    let mut buffers = lengths.map(|length| vec![0; length]);
    let answer = sample.normalize(normalize, settings, &mut buffers);
    [
        spaced(&sample.types),
        spaced(&sample.calls),
        spaced(&sample.inputs),
        spaced(&sample.term),
        settings.budget.to_string(),
        spaced(settings.ceilings),
        lengths[0].to_string(),
        lengths[1].to_string(),
        lengths[2].to_string(),
        answer.refusal.to_string(),
        answer.type_number.to_string(),
        answer.length.to_string(),
        spaced(answer.counts),
        spaced(&buffers[0][..answer.length]),
    ]
    .join(";")
}
