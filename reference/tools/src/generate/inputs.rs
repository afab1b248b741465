//! Samples with many inputs, and what they read of them: random terms, and inputs read at chosen
//! places only.

use super::phrases::*;
use super::places::{binders, sample_with_inputs, variable_at, Place, E, PLACES};
use super::shapes::C;
use super::tables::{random_tables, usable_types};
use super::terms::random_sample_over;
use super::{Profile, Sample};
use crate::random::Random;
use oracle::words::*;
use std::collections::BTreeSet;

/// Numbers of inputs: none, one, and at the borders of the four words of marks.
pub const INPUT_COUNTS: [usize; 8] = [0, 1, 63, 64, 65, 128, 255, 256];
/// The first and the last input of each word of marks.
pub const BORDER_INPUTS: [u64; 8] = [0, 63, 64, 127, 128, 191, 192, 255];
const MOST_INPUTS: usize = 256;

/// A sample, and the inputs it reads by the way it was made.
#[derive(Clone, Debug)]
pub struct Reading {
    pub sample: Sample,
    pub inputs: BTreeSet<u64>,
}

fn reading(sample: Sample, inputs: impl IntoIterator<Item = u64>) -> Reading {
    Reading {
        sample,
        inputs: inputs.into_iter().collect(),
    }
}

/// A random well-typed sample with exactly this many inputs.
pub fn sample_of_inputs(random: &mut Random, profile: &Profile, count: usize) -> Sample {
    let profile = Profile {
        most_inputs: profile.most_inputs.min(count),
        ..*profile
    };
    let mut words = random_tables(random, &profile);
    let usable = usable_types(&words.types, profile.first_order);
    while words.inputs.len() < count {
        let number = *random.pick(&usable);
        random.insert(&mut words.inputs, number);
    }
    random_sample_over(random, &profile, words)
}

/// One input, read at the end of these places, the outermost first.
pub fn read_at(places: &[&Place], count: usize, input: u64) -> Reading {
    let term = variable_at(places, binders(places) + input);
    reading(sample_with_inputs(count, term), [input])
}

/// Each border input alone: under no binder, under one, and under several.
pub fn border_readings() -> Vec<Reading> {
    let binding: Vec<&Place> = PLACES.iter().filter(|place| place.binders == 1).collect();
    let mut readings = Vec::new();
    for (index, &input) in BORDER_INPUTS.iter().enumerate() {
        for places in [&[], &binding[index..=index], &binding[..]] {
            readings.push(read_at(places, MOST_INPUTS, input));
        }
    }
    readings
}

/// An input at each place, where the same number without binders would be another input.
pub fn place_readings() -> Vec<Reading> {
    let inputs = (60..).zip(PLACES);
    inputs
        .map(|(input, place)| read_at(&[place], 100, input))
        .collect()
}

/// All inputs, none, one many times, and inputs under many binders.
pub fn whole_readings() -> Vec<Reading> {
    let all = || 0..MOST_INPUTS as u64;
    let over = |term| sample_with_inputs(MOST_INPUTS, term);
    vec![
        reading(over(calls_on(all())), all()),
        reading(over(calls_on(all().rev())), all()),
        reading(over(calls_on([70; 100])), [70]),
        reading(over(call(C, &[])), []),
        reading(sample_with_inputs(0, call(C, &[])), []),
        // Only binders are named, though there are inputs with the same numbers.
        reading(over(under_lets(40, calls_on(0..40))), []),
        reading(over(under_lets(300, variable(299))), []),
        reading(over(under_lets(300, variable(300))), [0]),
        reading(over(under_lets(300, variable(555))), [255]),
        // The same number twice: as an input, and as a binder.
        reading(
            over(call(E, &[&variable(1), &under_lets(2, variable(1))])),
            [1],
        ),
        // Each input under as many binders as its number says.
        reading(over(each_under_its_number(all())), all()),
    ]
}

/// Calls of two arguments, nested in the second, on the variables with these numbers.
fn calls_on(numbers: impl IntoIterator<Item = u64>) -> Phrase {
    let mut term = Phrase::new();
    for number in numbers {
        term.extend(call(E, &[&variable(number)]));
    }
    term.extend(call(C, &[]));
    term
}

/// A part under so many unused lets.
fn under_lets(lets: usize, part: Phrase) -> Phrase {
    let mut term = [pack_term(LET, 0, 0), pack_term(CALL, C, 0)].repeat(lets);
    term.extend(part);
    term
}

/// `let v, let v, … c`, where input i stands under i binders.
fn each_under_its_number(inputs: impl Iterator<Item = u64>) -> Phrase {
    let mut term = Phrase::new();
    for input in inputs {
        term.extend([pack_term(LET, 0, 0), pack_term(VARIABLE, 2 * input, 0)]);
    }
    term.extend(call(C, &[]));
    term
}

/// Up to so many variables, each at the end of up to so many random places: most name an input,
/// some a binder.
pub fn random_reading(random: &mut Random, most_reads: usize, most_places: usize) -> Reading {
    let count = random_count(random);
    let mut term = call(C, &[]);
    let mut inputs = BTreeSet::new();
    for _ in 0..random.between(0, most_reads) {
        let places = random_places(random, most_places);
        let bound = binders(&places);
        let number = match random_input(random, count) {
            Some(input) if bound == 0 || random.chance(80) => {
                inputs.insert(input);
                bound + input
            }
            _ if bound > 0 => random.below(bound as usize) as u64,
            _ => continue,
        };
        term = call(E, &[&variable_at(&places, number), &term]);
    }
    reading(sample_with_inputs(count, term), inputs)
}

/// A number of inputs, most often 256.
pub fn random_count(random: &mut Random) -> usize {
    if random.chance(50) {
        return MOST_INPUTS;
    }
    *random.pick(&INPUT_COUNTS)
}

pub fn random_places(random: &mut Random, most: usize) -> Vec<&'static Place> {
    let count = random.between(0, most);
    (0..count).map(|_| random.pick(PLACES)).collect()
}

/// One of so many inputs, often one at a border; none if there are none.
fn random_input(random: &mut Random, count: usize) -> Option<u64> {
    let at_border = *random.pick(&BORDER_INPUTS);
    if random.chance(50) && at_border < count as u64 {
        return Some(at_border);
    }
    (count > 0).then(|| random.below(count) as u64)
}
