//! A test on many random samples.

use super::inputs::{sample_of_inputs, INPUT_COUNTS};
use super::terms::random_sample;
use super::{Profile, Sample};
use crate::random::Random;
use oracle::deep_stack::with_deep_stack;

/// Makes the sample of a turn.
pub type Make = fn(&mut Random, Profile, usize) -> Sample;

/// Hands `count` samples of up to about `most_fuel` words to `test`, each as `make` makes it in its
/// turn.
pub fn each_sample(
    make: Make,
    seed: u64,
    count: usize,
    most_fuel: usize,
    mut test: impl FnMut(&mut Random, Sample) + Send,
) {
    with_deep_stack(|| {
        let mut random = Random::new(seed);
        for turn in 0..count {
            let profile = Profile::of_size(random.between(1, most_fuel));
            let sample = make(&mut random, profile, turn);
            test(&mut random, sample);
        }
    });
}

/// A sample of the profile.
pub fn plain_sample(random: &mut Random, profile: Profile, _: usize) -> Sample {
    random_sample(random, &profile)
}

/// With 0 to 256 inputs, by turns.
fn sample_by_inputs(random: &mut Random, profile: Profile, turn: usize) -> Sample {
    sample_of_inputs(random, &profile, INPUT_COUNTS[turn % INPUT_COUNTS.len()])
}

/// With the unit type, in half of the cases with demand 3's premise.
pub fn unit_sample(random: &mut Random, profile: Profile, turn: usize) -> Sample {
    random_sample(random, &first_order_by_turns(profile.with_units(), turn))
}

/// With calls that act in most of the cases, and by turns with the unit type.
pub fn acting_sample(random: &mut Random, profile: Profile, turn: usize) -> Sample {
    let profile = profile.with_acting_calls();
    let profile = match turn % 4 {
        0..2 => profile,
        _ => profile.with_units(),
    };
    random_sample(random, &first_order_by_turns(profile, turn))
}

/// Plain samples, those with units and those with acting calls, each sort with a seed of its own.
pub fn all_sorts(seed: u64) -> [(Make, u64); 3] {
    [
        (plain_sample, seed),
        (unit_sample, seed + 1),
        (acting_sample, seed + 2),
    ]
}

fn first_order_by_turns(profile: Profile, turn: usize) -> Profile {
    match turn % 2 {
        0 => profile,
        _ => profile.first_order(),
    }
}

pub fn each_random_sample(
    seed: u64,
    count: usize,
    most_fuel: usize,
    test: impl FnMut(&mut Random, Sample) + Send,
) {
    each_sample(plain_sample, seed, count, most_fuel, test);
}

pub fn each_sample_of_inputs(
    seed: u64,
    count: usize,
    most_fuel: usize,
    test: impl FnMut(&mut Random, Sample) + Send,
) {
    each_sample(sample_by_inputs, seed, count, most_fuel, test);
}

pub fn each_unit_sample(
    seed: u64,
    count: usize,
    most_fuel: usize,
    test: impl FnMut(&mut Random, Sample) + Send,
) {
    each_sample(unit_sample, seed, count, most_fuel, test);
}

pub fn each_acting_sample(
    seed: u64,
    count: usize,
    most_fuel: usize,
    test: impl FnMut(&mut Random, Sample) + Send,
) {
    each_sample(acting_sample, seed, count, most_fuel, test);
}
