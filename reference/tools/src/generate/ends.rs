//! Words of any sort over call words of any sort: whole terms, terms with words behind them, terms
//! with a fault, random words. One term may stand at the front, or none.

use super::damage::unknown_number;
use super::terms::random_sample;
use super::{Profile, Sample};
use crate::random::Random;
use oracle::words::*;

/// Words to find the end of the first part in, and the call table.
#[derive(Clone, Debug, PartialEq, Eq)]
pub struct AnyWords {
    pub calls: Vec<u64>,
    pub words: Vec<u64>,
}

/// What a change of a whole term does to its end.
#[derive(Clone, Copy, Debug, PartialEq, Eq)]
pub enum Effect {
    /// The end stays.
    Kept,
    /// There is no end any more.
    Lost,
    /// There may be another end or none.
    Open,
}

/// A change of a whole term.
pub struct Change {
    pub name: &'static str,
    pub effect: Effect,
    pub apply: Apply,
}

type Apply = fn(&mut Random, &mut AnyWords);

const fn change(effect: Effect, name: &'static str, apply: Apply) -> Change {
    Change {
        name,
        effect,
        apply,
    }
}

pub const CHANGES: &[Change] = &[
    change(Effect::Kept, "none", |_, _| {}),
    change(Effect::Kept, "random words behind", |random, any| {
        let more = random.between(1, 8);
        any.words.extend((0..more).map(|_| random_word(random)));
    }),
    change(Effect::Kept, "another term behind", |random, any| {
        let other = random_sample(random, &Profile::SMALLER.with_units());
        any.words.extend(other.term);
    }),
    change(Effect::Kept, "fields without meaning set", |random, any| {
        for word in &mut any.words {
            *word = with_any_fields(random, *word);
        }
    }),
    change(Effect::Kept, "other types of the calls", |random, any| {
        for word in &mut any.calls {
            let (count, ..) = unpack_call(*word);
            *word = random_call_word(random, count);
        }
    }),
    change(Effect::Lost, "cut short", |random, any| {
        let length = random.below(any.words.len());
        any.words.truncate(length);
    }),
    change(Effect::Lost, "no words", |_, any| any.words.clear()),
    change(Effect::Lost, "an unknown kind", |random, any| {
        let kind = random.between(12, 15) as u64;
        replace_one(random, any, pack_term(kind, 0, 0));
    }),
    change(Effect::Lost, "a call past the table", |random, any| {
        let number = unknown_number(random, any.calls.len(), 30);
        replace_one(random, any, pack_term(CALL, number, 0));
    }),
    change(Effect::Lost, "a malformed count", |random, any| {
        let number = named_call(random, any);
        let count = *random.pick(&[4, 5, 6, 7, 12, 13, 14, 15]);
        any.calls[number] = random_call_word(random, count);
        if random.chance(50) {
            // As many parts as the count would say.
            any.words.extend([pack_term(VARIABLE, 0, 0); 15]);
        }
    }),
    change(Effect::Open, "another count", |random, any| {
        let number = named_call(random, any);
        let count = *random.pick(&[0, 1, 2, 3, 8, 9, 10, 11]);
        any.calls[number] = random_call_word(random, count);
    }),
    change(Effect::Open, "no calls", |_, any| any.calls.clear()),
    change(Effect::Open, "a word put in", |random, any| {
        let word = random_word(random);
        random.insert(&mut any.words, word);
    }),
    change(Effect::Open, "a word replaced", |random, any| {
        let word = random_word(random);
        replace_one(random, any, word);
    }),
    change(Effect::Open, "a word taken out", |random, any| {
        let index = random.below(any.words.len());
        any.words.remove(index);
    }),
];

fn replace_one(random: &mut Random, any: &mut AnyWords, word: u64) {
    let index = random.below(any.words.len());
    any.words[index] = word;
}

/// A call of the table that the term names; a random node becomes one of a new call if there is none.
fn named_call(random: &mut Random, any: &mut AnyWords) -> usize {
    let nodes = any.words.iter().map(|&word| unpack_term(word));
    let calls = nodes.filter(|&(kind, ..)| kind == CALL);
    let numbers: Vec<usize> = calls.map(|(_, number, _)| number as usize).collect();
    if !numbers.is_empty() {
        return *random.pick(&numbers);
    }
    let number = any.calls.len();
    any.calls.push(pack_call(0, 0, [0; 3]));
    replace_one(random, any, pack_term(CALL, number as u64, 0));
    number
}

/// A word of the same kind, and of the same number if it is a call, with any other fields.
fn with_any_fields(random: &mut Random, word: u64) -> u64 {
    let (kind, number, _) = unpack_term(word);
    let mut any_field = || random.below(1 << 30) as u64;
    let number = if kind == CALL { number } else { any_field() };
    pack_term(kind, number, any_field())
}

/// A call word with this count and small numbers in all other fields.
fn random_call_word(random: &mut Random, count: u64) -> u64 {
    let mut small = || random.below(4) as u64;
    pack_call(count, small(), [small(), small(), small()])
}

/// A word of any kind from 0 to 13 with small numbers in its fields.
fn random_word(random: &mut Random) -> u64 {
    let kind = random.between(0, 13) as u64;
    pack_term(kind, random.below(5) as u64, random.below(3) as u64)
}

/// A few random words over a few call words with any counts; past the first, many have no parts.
pub fn random_words(random: &mut Random) -> AnyWords {
    let calls = (0..random.below(6)).map(|_| {
        let count = random.below(16) as u64;
        random_call_word(random, count)
    });
    let calls = calls.collect();
    let words = (0..random.below(14)).map(|index| match random.below(5) {
        0..2 if index > 0 => pack_term(*random.pick(&[VARIABLE, UNIT]), 0, 0),
        _ => random_word(random),
    });
    let words = words.collect();
    AnyWords { calls, words }
}

/// The sample's term with the change.
pub fn changed(random: &mut Random, sample: &Sample, change: &Change) -> AnyWords {
    let mut any = AnyWords {
        calls: sample.calls.clone(),
        words: sample.term.clone(),
    };
    (change.apply)(random, &mut any);
    any
}

/// Any of all these: the sample's term with a change, or random words.
pub fn any_words(random: &mut Random, sample: &Sample) -> AnyWords {
    match random.below(3) {
        0 => random_words(random),
        _ => {
            let change = random.pick(CHANGES);
            changed(random, sample, change)
        }
    }
}
