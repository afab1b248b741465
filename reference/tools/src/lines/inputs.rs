//! Lines of `inputs SEED COUNT`: short terms over up to 256 inputs, with the answer of free_inputs.
//!
//! One term a line: `types;calls;inputs;term;refusal;count;marks`. The tables and the four words of
//! marks are decimal words separated by spaces. Terms are well typed, with few or many inputs, or
//! have a fault (1 to 9).

use super::cases::damaged_sample;
use super::{spaced, Additions};
use crate::generate::inputs::{random_count, random_reading, sample_of_inputs};
use crate::generate::{Profile, Sample};
use crate::random::Random;
use oracle::free_inputs::free_inputs;

/// The longest term in a line, in words.
const LONGEST_TERM: usize = 40;

/// The line of one random term.
pub fn inputs_line(random: &mut Random, additions: Additions) -> String {
    let sample = short(random, additions);
    let answer = sample.free_inputs(free_inputs);
    [
        spaced(&sample.types),
        spaced(&sample.calls),
        spaced(&sample.inputs),
        spaced(&sample.term),
        answer.refusal.to_string(),
        answer.count.to_string(),
        spaced(answer.marks),
    ]
    .join(";")
}

/// A sample with a term of at most 40 words.
fn short(random: &mut Random, additions: Additions) -> Sample {
    let Additions { units, acting } = additions;
    loop {
        let sample = match random.below(8) {
            0..6 if units || acting => with_additions(random, additions),
            0..3 => {
                let count = random_count(random);
                sample_of_inputs(random, &Profile::SMALL, count)
            }
            3..6 => random_reading(random, 4, 5).sample,
            6 => damaged_sample(random, additions),
            _ => with_a_wrong_variable(random, additions),
        };
        if sample.term.len() <= LONGEST_TERM {
            return sample;
        }
    }
}

/// A random term that has a unit, or names an acting call, or both, as asked.
fn with_additions(random: &mut Random, additions: Additions) -> Sample {
    loop {
        let count = random_count(random);
        let sample = sample_of_inputs(random, &additions.to(Profile::SMALL), count);
        let has_units = !additions.units || sample.has_unit();
        if has_units && (!additions.acting || sample.names_acting_call()) {
            return sample;
        }
    }
}

/// A sample with many inputs, one of which is taken away: a variable may name none then.
fn with_a_wrong_variable(random: &mut Random, additions: Additions) -> Sample {
    let mut sample = if additions.units || additions.acting {
        with_additions(random, additions)
    } else {
        random_reading(random, 4, 5).sample
    };
    sample.inputs.pop();
    sample
}
