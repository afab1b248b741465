//! Faults of the unit type and its value, and kinds that are still unknown.

use super::damage::{damage, insert_or_replace, unknown_number, Damage};
use super::phrases::*;
use super::units::*;
use super::Sample;
use crate::random::Random;
use oracle::words::*;

/// A unit type word with a field set.
fn marked_unit_type(random: &mut Random) -> u64 {
    pack_type(UNIT_TYPE, 0, 0) | 1 << random.below(60)
}

pub const UNIT_DAMAGES: &[Damage] = &[
    damage(2, "type kind over 4", |random, sample| {
        let word = pack_type(random.between(5, 15) as u64, 0, 0);
        random.insert(&mut sample.types, word);
    }),
    damage(2, "type kind over 4 after a duplicate", |random, sample| {
        sample.types.insert(0, sample.types[0]);
        let kind = random.between(5, 15) as u64;
        sample.types.push(pack_type(kind, 0, 0));
    }),
    damage(2, "unit type with a left field", |random, sample| {
        let word = pack_type(UNIT_TYPE, 1 << random.below(30), 0);
        random.insert(&mut sample.types, word);
    }),
    damage(2, "unit type with a right field", |random, sample| {
        let word = pack_type(UNIT_TYPE, 0, 1 << random.below(30));
        random.insert(&mut sample.types, word);
    }),
    damage(2, "unit type with a field, twice", |random, sample| {
        let word = marked_unit_type(random);
        random.insert(&mut sample.types, word);
        random.insert(&mut sample.types, word);
    }),
    damage(2, "unit type with a field among two", |random, sample| {
        let word = marked_unit_type(random);
        sample.types.insert(0, pack_type(UNIT_TYPE, 0, 0));
        sample.types.push(word);
        sample.types.push(pack_type(UNIT_TYPE, 0, 0));
    }),
    damage(3, "two unit types", |random, sample| {
        for _ in 0..2 {
            random.insert(&mut sample.types, pack_type(UNIT_TYPE, 0, 0));
        }
    }),
    damage(6, "term kind over 11", |random, sample| {
        let word = pack_term(random.between(12, 15) as u64, 0, 0);
        insert_or_replace(random, &mut sample.term, word);
    }),
    damage(6, "a unit with a number", |random, sample| {
        let word = pack_term(UNIT, 1 << random.below(30), 0);
        insert_or_replace(random, &mut sample.term, word);
    }),
    damage(6, "a unit of an unknown type", |random, sample| {
        let unknown = unknown_number(random, sample.types.len(), 30);
        insert_or_replace(random, &mut sample.term, pack_term(UNIT, 0, unknown));
    }),
    damage(7, "a word after a unit", |random, sample| {
        let kind = *random.pick(&[VARIABLE, APPLICATION, LET, FIRST, SECOND, CASE, UNIT]);
        sample.term = vec![pack_term(UNIT, 0, 0), pack_term(kind, 0, 0)];
    }),
    damage(7, "a unit is left over", |random, sample| {
        let number = random.below(sample.types.len());
        sample.term.push(pack_term(UNIT, 0, number as u64));
    }),
    damage(7, "a unit is the last part but one", |random, sample| {
        let number = random.below(sample.types.len());
        sample.term.insert(0, pack_term(CASE, 0, 0));
        sample.term.push(pack_term(UNIT, 0, number as u64));
    }),
    damage(7, "a let of a unit has no body", |random, sample| {
        let number = random.below(sample.types.len());
        let words = [pack_term(LET, 0, 0), pack_term(UNIT, 0, number as u64)];
        sample.term = words.to_vec();
    }),
    damage(9, "a unit where it does not fit", |random, sample| {
        *sample = broken_unit_sample(random);
    }),
];

/// Terms with units that break a typing rule each, over the tables of `units.rs`.
fn broken_terms() -> Vec<Phrase> {
    let (c, u) = (c(), u());
    vec![
        // A unit's type is no unit type.
        unit(B),
        unit(U_TO_B),
        unit(B_OR_U),
        unit(B_AND_U),
        unit(U_AND_U),
        let_in(&unit(B), &c),
        let_in(&unit(U_TO_B), &apply(&variable(0), &u)),
        // A unit in the place of a base value, and the other way round.
        call(D, &[&u]),
        call(BOTH, &[&u, &c]),
        call(TAKE, &[&c]),
        pair(B_AND_U, &u, &u),
        pair(B_AND_U, &c, &c),
        left(B_OR_U, &u),
        right(B_OR_U, &c),
        apply(&function(U_TO_B, &c), &c),
        apply(&function(B_TO_U, &u), &u),
        function(U_TO_B, &u),
        function(B_TO_U, &c),
        // A unit is no function, no pair and no injection.
        apply(&u, &u),
        first(&u),
        second(&u),
        case(&u, &c, &c),
        // The unit type is none of their types.
        function(U, &u),
        pair(U, &u, &u),
        left(U, &u),
        right(U, &u),
        // A branch's and a let's variable is a unit, and one branch is.
        case(&call(CHOICE, &[]), &c, &call(D, &[&variable(0)])),
        let_in(&u, &call(D, &[&variable(0)])),
        case(&call(CHOICE, &[]), &c, &u),
    ]
}

/// All of them, each with its tables.
pub fn broken_unit_samples() -> Vec<Sample> {
    let terms = broken_terms().into_iter();
    terms.map(|term| sample(&[], term)).collect()
}

/// A random one, sometimes deeper in a larger term.
fn broken_unit_sample(random: &mut Random) -> Sample {
    let mut term = random.pick(&broken_terms()).clone();
    while random.chance(40) {
        term = match random.below(4) {
            0 => let_in(&term, &u()),
            1 => let_in(&u(), &term),
            2 => case(&call(CHOICE, &[]), &c(), &let_in(&term, &c())),
            _ => let_in(&function(U_TO_B, &let_in(&term, &c())), &u()),
        };
    }
    sample(&[], term)
}
