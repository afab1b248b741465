//! Faults of call words with the count of an acting call, and of the nodes that name one.

use super::acting::*;
use super::damage::{damage, unknown_number, Damage};
use super::phrases::*;
use super::shapes::{B_AND_B, B_OR_B, B_TO_B, D};
use super::Sample;
use crate::random::Random;
use oracle::words::*;

/// Inserts a call word with the count of an acting call of so many arguments.
fn insert_call(random: &mut Random, sample: &mut Sample, arguments: usize, types: [u64; 3]) {
    let word = pack_call(ACTING + arguments as u64, 0, types);
    random.insert(&mut sample.calls, word);
}

/// What a field is set to that should be zero: half the time a type that is known, if there is one.
fn past_the_arguments(random: &mut Random, sample: &Sample) -> u64 {
    let last = sample.types.len() - 1;
    if last > 0 && random.chance(50) {
        return random.between(1, last) as u64;
    }
    1 << random.below(15)
}

pub const ACTING_DAMAGES: &[Damage] = &[
    damage(4, "a count from 4 to 7", |random, sample| {
        let word = pack_call(random.between(4, 7) as u64, 0, [0; 3]);
        random.insert(&mut sample.calls, word);
    }),
    damage(4, "a count from 12 to 15", |random, sample| {
        let word = pack_call(random.between(12, 15) as u64, 0, [0; 3]);
        random.insert(&mut sample.calls, word);
    }),
    damage(4, "a field just past no argument", |random, sample| {
        let field = past_the_arguments(random, sample);
        insert_call(random, sample, 0, [field, 0, 0]);
    }),
    damage(4, "a field just past one argument", |random, sample| {
        let field = past_the_arguments(random, sample);
        insert_call(random, sample, 1, [0, field, 0]);
    }),
    damage(4, "a field just past two arguments", |random, sample| {
        let field = past_the_arguments(random, sample);
        insert_call(random, sample, 2, [0, 0, field]);
    }),
    damage(4, "a field further past the arguments", |random, sample| {
        let arguments = random.below(2);
        let field = past_the_arguments(random, sample);
        insert_call(random, sample, arguments, [0, 0, field]);
    }),
    damage(4, "an acting call's unknown argument", |random, sample| {
        let arguments = random.between(1, 3);
        let mut types = [0; 3];
        types[random.below(arguments)] = unknown_number(random, sample.types.len(), 15);
        insert_call(random, sample, arguments, types);
    }),
    damage(4, "an acting call's unknown result", |random, sample| {
        let unknown = unknown_number(random, sample.types.len(), 15);
        let count = ACTING + random.between(0, 3) as u64;
        random.insert(&mut sample.calls, pack_call(count, unknown, [0; 3]));
    }),
    damage(
        7,
        "too few arguments of an acting call",
        |random, sample| {
            let arguments = random.between(1, 3);
            name_a_new_call(sample, arguments, arguments - 1);
        },
    ),
    damage(
        7,
        "too many arguments of an acting call",
        |random, sample| {
            let arguments = random.between(0, 3);
            let given = arguments + random.between(1, 8);
            name_a_new_call(sample, arguments, given);
        },
    ),
    damage(
        9,
        "an acting call where it does not fit",
        |random, sample| {
            *sample = broken_acting_sample(random);
        },
    ),
];

/// Adds an acting call of so many arguments, and makes the term name it on so many words.
fn name_a_new_call(sample: &mut Sample, arguments: usize, given: usize) {
    let number = sample.calls.len() as u64;
    let count = ACTING + arguments as u64;
    sample.calls.push(pack_call(count, 0, [0; 3]));
    sample.term = call(number, &[]);
    sample.term.extend(variable(0).repeat(given));
}

/// Terms with acting calls that break a typing rule each, over the tables of `acting.rs`.
fn broken_terms() -> Vec<Phrase> {
    let choose = call(CHOOSE, &[]);
    let (pair, function) = (pair(B_AND_B, &c(), &c()), function(B_TO_B, &c()));
    vec![
        // An argument of another type, in each place.
        call(STAMP, &[&choose]),
        call(STAMP, &[&pair]),
        call(STAMP, &[&function]),
        call(STORE, &[&choose, &c()]),
        call(STORE, &[&c(), &choose]),
        call(MERGE, &[&pair, &c(), &c()]),
        call(MERGE, &[&c(), &function, &c()]),
        call(MERGE, &[&c(), &c(), &choose]),
        // An answer of another type.
        call(D, &[&choose]),
        case(&begin(), &c(), &c()),
        case(&choose, &c(), &choose),
        apply(&begin(), &c()),
        first(&call(STAMP, &[&c()])),
        left(B_OR_B, &choose),
        let_in(&choose, &stamp(0)),
        let_in(&begin(), &case(&variable(0), &c(), &c())),
    ]
}

/// All of them, each with its tables.
pub fn broken_acting_samples() -> Vec<Sample> {
    let terms = broken_terms().into_iter();
    terms.map(|term| sample(&[], term)).collect()
}

/// A random one, sometimes deeper in a larger term.
fn broken_acting_sample(random: &mut Random) -> Sample {
    let mut term = random.pick(&broken_terms()).clone();
    while random.chance(40) {
        term = match random.below(3) {
            0 => let_in(&term, &begin()),
            1 => let_in(&begin(), &term),
            _ => case(&call(CHOOSE, &[]), &c(), &let_in(&term, &c())),
        };
    }
    sample(&[], term)
}
