//! Faults for the refusals 1 to 9: one for each reason in the paper's table. `unit_damage.rs` has
//! those of the unit type, `acting_damage.rs` those of calls that act.

use super::acting_damage::ACTING_DAMAGES;
use super::ill_typed::broken_sample;
use super::unit_damage::UNIT_DAMAGES;
use super::Sample;
use crate::random::Random;
use oracle::coding::{decode, encode};
use oracle::dialect::Dialect;
use oracle::tables::decode_calls;
use oracle::term::Term;
use oracle::words::*;

/// A fault put into a sample. If nothing of a lower number is wrong with the sample, the damaged
/// one is refused under this number.
pub struct Damage {
    pub name: &'static str,
    pub refusal: u32,
    /// The damaged sample is not much larger.
    pub is_small: bool,
    /// The dialect, if any, from which on what was put in may be no fault.
    pub until: Option<Dialect>,
    pub apply: Apply,
}

type Apply = fn(&mut Random, &mut Sample);

impl Damage {
    /// Whether it is a fault in the dialect of the public calls.
    fn is_current(&self) -> bool {
        self.until.is_none_or(|known| Dialect::CURRENT < known)
    }
}

/// All faults in the dialect of the public calls.
pub fn damages() -> Vec<&'static Damage> {
    let all = DAMAGES.iter().chain(UNIT_DAMAGES).chain(ACTING_DAMAGES);
    all.filter(|damage| damage.is_current()).collect()
}

pub const fn damage(refusal: u32, name: &'static str, apply: Apply) -> Damage {
    Damage {
        name,
        refusal,
        is_small: true,
        until: None,
        apply,
    }
}

const fn damage_until(known: Dialect, refusal: u32, name: &'static str, apply: Apply) -> Damage {
    Damage {
        until: Some(known),
        ..damage(refusal, name, apply)
    }
}

const fn large_damage(name: &'static str, apply: fn(&mut Random, &mut Sample)) -> Damage {
    Damage {
        is_small: false,
        ..damage(1, name, apply)
    }
}

/// The faults of the base dialect.
pub const DAMAGES: &[Damage] = &[
    large_damage("1,025 types", |_, sample| sample.types.resize(1025, 0)),
    large_damage("1,025 calls", |_, sample| sample.calls.resize(1025, 0)),
    large_damage("257 inputs", |_, sample| sample.inputs.resize(257, 0)),
    large_damage("8,193 term words", |_, sample| sample.term.resize(8193, 0)),
    damage(1, "no term word", |_, sample| sample.term.clear()),
    damage_until(Dialect::Units, 2, "type kind over 3", |random, sample| {
        let word = pack_type(random.between(4, 15) as u64, 0, 0);
        random.insert(&mut sample.types, word);
    }),
    damage(2, "base type with a right field", |random, sample| {
        let right = 1 << random.below(30);
        random.insert(&mut sample.types, pack_type(BASE, 0, right));
    }),
    damage(2, "left part not earlier", |random, sample| {
        insert_type_with_late_part(random, sample, |late, early| (late, early));
    }),
    damage(2, "right part not earlier", |random, sample| {
        insert_type_with_late_part(random, sample, |late, early| (early, late));
    }),
    damage(2, "both parts not earlier", |random, sample| {
        insert_type_with_late_part(random, sample, |late, _| (late, late));
    }),
    damage_until(
        Dialect::Units,
        2,
        "bad kind after a duplicate",
        |random, sample| {
            sample.types.insert(0, sample.types[0]);
            let kind = random.between(4, 15) as u64;
            sample.types.push(pack_type(kind, 0, 0));
        },
    ),
    damage(3, "a type word is duplicated", |random, sample| {
        let original = random.below(sample.types.len());
        let copy = random.between(original + 1, sample.types.len());
        sample.types.insert(copy, sample.types[original]);
    }),
    damage_until(
        Dialect::Acting,
        4,
        "argument count over 3",
        |random, sample| {
            let word = pack_call(random.between(4, 15) as u64, 0, [0; 3]);
            random.insert(&mut sample.calls, word);
        },
    ),
    damage(4, "unknown result type", |random, sample| {
        let unknown = unknown_number(random, sample.types.len(), 15);
        let count = random.between(0, 3) as u64;
        random.insert(&mut sample.calls, pack_call(count, unknown, [0; 3]));
    }),
    damage(4, "unknown argument type", |random, sample| {
        let count = random.between(1, 3);
        let mut arguments = [0; 3];
        arguments[random.below(count)] = unknown_number(random, sample.types.len(), 15);
        let word = pack_call(count as u64, 0, arguments);
        random.insert(&mut sample.calls, word);
    }),
    damage(4, "unused argument field set", |random, sample| {
        let count = random.between(0, 2);
        let mut arguments = [0; 3];
        arguments[random.between(count, 2)] = 1 << random.below(15);
        let word = pack_call(count as u64, 0, arguments);
        random.insert(&mut sample.calls, word);
    }),
    damage(5, "unknown input type", |random, sample| {
        let unknown = unknown_number(random, sample.types.len(), 30);
        random.insert(&mut sample.inputs, unknown);
    }),
    damage(5, "input word with a high bit", |random, sample| {
        let high_bit = 1 << random.between(30, 63);
        random.insert(&mut sample.inputs, high_bit);
    }),
    damage_until(Dialect::Units, 6, "term kind over 10", |random, sample| {
        let word = pack_term(random.between(11, 15) as u64, 0, 0);
        insert_or_replace(random, &mut sample.term, word);
    }),
    damage(6, "unused number set", |random, sample| {
        let kinds = [
            FUNCTION,
            APPLICATION,
            LET,
            PAIR,
            FIRST,
            SECOND,
            LEFT,
            RIGHT,
            CASE,
        ];
        let word = pack_term(*random.pick(&kinds), 1 << random.below(30), 0);
        insert_or_replace(random, &mut sample.term, word);
    }),
    damage(6, "unused type set", |random, sample| {
        let kinds = [VARIABLE, CALL, APPLICATION, LET, FIRST, SECOND, CASE];
        let word = pack_term(*random.pick(&kinds), 0, 1 << random.below(30));
        insert_or_replace(random, &mut sample.term, word);
    }),
    damage(6, "a node's unused field set", |random, sample| {
        let index = random.below(sample.term.len());
        let (kind, _, _) = unpack_term(sample.term[index]);
        let number_is_used = kind == VARIABLE || kind == CALL;
        let shift = if number_is_used { 0 } else { 30 };
        sample.term[index] |= 1 << (shift + random.below(30));
    }),
    damage(6, "unknown call", |random, sample| {
        let unknown = unknown_number(random, sample.calls.len(), 30);
        insert_or_replace(random, &mut sample.term, pack_term(CALL, unknown, 0));
    }),
    damage(6, "unknown type in a node", |random, sample| {
        let kind = *random.pick(&[FUNCTION, PAIR, LEFT, RIGHT]);
        let unknown = unknown_number(random, sample.types.len(), 30);
        insert_or_replace(random, &mut sample.term, pack_term(kind, 0, unknown));
    }),
    damage(7, "words end early", |random, sample| {
        let length = sample.term.len();
        if length > 1 && random.chance(70) {
            sample.term.truncate(random.between(1, length - 1));
        } else {
            sample.term.insert(0, pack_term(LET, 0, 0));
        }
    }),
    damage(7, "words are left over", |random, sample| {
        let kind = *random.pick(&[VARIABLE, APPLICATION, LET, FIRST, SECOND, CASE]);
        sample.term.push(pack_term(kind, 0, 0));
    }),
    damage(8, "a variable just past the inputs", |random, sample| {
        damage_variable(random, sample, 0);
    }),
    damage(8, "a variable far past the inputs", |random, sample| {
        let distance = 1 << random.below(29);
        damage_variable(random, sample, distance);
    }),
    damage(9, "a broken typing rule", |random, sample| {
        *sample = broken_sample(random);
    }),
];

/// Flips a bit of one of the words.
pub fn flip_a_bit(random: &mut Random, sample: &mut Sample) {
    let tables = [
        &mut sample.types,
        &mut sample.calls,
        &mut sample.inputs,
        &mut sample.term,
    ];
    let mut words: Vec<&mut u64> = tables.into_iter().flatten().collect();
    let index = random.below(words.len());
    *words[index] ^= 1 << random.below(64);
}

/// Puts in the damages, which have different numbers; answers the lowest number.
pub fn apply_damages(random: &mut Random, sample: &mut Sample, damages: &[&Damage]) -> u32 {
    let mut damages = damages.to_vec();
    damages.sort_by_key(|damage| std::cmp::Reverse(damage.refusal));
    for damage in &damages {
        (damage.apply)(random, sample);
    }
    damages.last().map_or(0, |damage| damage.refusal)
}

pub fn insert_or_replace(random: &mut Random, words: &mut Vec<u64>, word: u64) {
    if random.chance(50) {
        random.insert(words, word);
    } else {
        let index = random.below(words.len());
        words[index] = word;
    }
}

/// A number of this width at or past a table's end, often the first one.
pub fn unknown_number(random: &mut Random, table_length: usize, width: u32) -> u64 {
    let last = (1 << width) - 1;
    let number = match random.below(3) {
        0 => table_length,
        1 => table_length + random.below(10),
        _ => random.between(table_length, last),
    };
    number as u64
}

/// Inserts a type of which `place` says where the late part goes, given a late and an early one.
fn insert_type_with_late_part(
    random: &mut Random,
    sample: &mut Sample,
    place: fn(u64, u64) -> (u64, u64),
) {
    let index = random.between(1, sample.types.len());
    let kind = random.between(1, 3) as u64;
    let late = unknown_number(random, index, 30);
    let (left, right) = place(late, random.below(index) as u64);
    sample.types.insert(index, pack_type(kind, left, right));
}

/// Lets a random variable count `distance` past the last input; adds one if there is none.
fn damage_variable(random: &mut Random, sample: &mut Sample, distance: u32) {
    let signatures = decode_calls(&sample.calls, sample.types.len());
    let signatures = signatures.expect("the call table has no fault yet");
    let mut term = decode(&sample.term, &signatures).expect("the words are a term");
    let inputs = sample.inputs.len() as u32;
    let mut variables = Vec::new();
    collect_variables(&mut term, inputs, &mut variables);
    if variables.is_empty() {
        let number = u64::from(inputs + distance);
        let outside = [pack_term(LET, 0, 0), pack_term(VARIABLE, number, 0)];
        sample.term.splice(0..0, outside);
        return;
    }
    let chosen = random.below(variables.len());
    let (number, in_scope) = &mut variables[chosen];
    **number = *in_scope + distance;
    sample.term = encode(&term);
}

/// All variables, each with the number of binders and inputs in scope there.
fn collect_variables<'a>(
    term: &'a mut Term,
    in_scope: u32,
    variables: &mut Vec<(&'a mut u32, u32)>,
) {
    if let Term::Variable(number) = term {
        variables.push((number, in_scope));
        return;
    }
    for (role, part) in term.parts_mut() {
        collect_variables(part, in_scope + role.binders(), variables);
    }
}
