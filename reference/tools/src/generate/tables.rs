//! Random type, call and input tables in which every type is inhabited.

use super::Profile;
use crate::random::Random;
use oracle::subformula::has_function;
use oracle::tables::Tables;
use oracle::words::*;

/// The largest type, counted in nodes of its tree, so that its values stay small.
const LARGEST_TYPE: usize = 15;
const MOST_BASES: usize = 3;

/// Table words of a sample before it has a term.
pub struct TableWords {
    pub types: Vec<u64>,
    pub calls: Vec<u64>,
    pub inputs: Vec<u64>,
}

/// Random tables; for each base type there is an input or a call without arguments.
pub fn random_tables(random: &mut Random, profile: &Profile) -> TableWords {
    let types = random_types(random, profile.most_types, profile.units);
    let usable = usable_types(&types, profile.first_order);
    let mut calls = Vec::new();
    let mut inputs = Vec::new();
    for (number, &word) in types.iter().enumerate() {
        if unpack_type(word).0 != BASE {
            continue;
        }
        let as_input = random.chance(30) && inputs.len() < profile.most_inputs;
        if as_input || calls.len() == profile.most_calls {
            inputs.push(number as u64);
        } else {
            calls.push(pack_call(0, number as u64, [0; 3]));
        }
    }
    let more_calls = random.between(0, profile.most_calls - calls.len());
    for _ in 0..more_calls {
        let word = random_call(random, &usable);
        random.insert(&mut calls, word);
    }
    let most_inputs = profile.most_inputs.saturating_sub(inputs.len());
    for _ in 0..random.between(0, most_inputs) {
        let number = *random.pick(&usable);
        random.insert(&mut inputs, number);
    }
    if profile.acting {
        let_some_act(random, &mut calls);
    }
    TableWords {
        types,
        calls,
        inputs,
    }
}

/// Numbers of the types that may stand in the interface.
pub fn usable_types(types: &[u64], first_order: bool) -> Vec<u64> {
    let Some(tables) = Tables::from_words(types, &[], &[]) else {
        return Vec::new();
    };
    (0..types.len() as u32)
        .filter(|&number| !first_order || !has_function(&tables, number))
        .map(u64::from)
        .collect()
}

fn random_types(random: &mut Random, most: usize, units: bool) -> Vec<u64> {
    let count = random.between(1, most);
    // The unit type is one of the first, so that later ones have it as a part.
    let unit_place = units.then(|| random.below(count.min(4)));
    let mut words: Vec<u64> = match unit_place {
        Some(0) => vec![pack_type(UNIT_TYPE, 0, 0)],
        _ => vec![random_base(random)],
    };
    let mut sizes = vec![1];
    while words.len() < count {
        if unit_place == Some(words.len()) {
            words.push(pack_type(UNIT_TYPE, 0, 0));
            sizes.push(1);
            continue;
        }
        let kind = *random.pick(&[BASE, FUNCTION_TYPE, FUNCTION_TYPE, PRODUCT, SUM]);
        let left = random.below(words.len());
        let right = random.below(words.len());
        let bases = words.iter().filter(|&&word| unpack_type(word).0 == BASE);
        let (word, size) = if kind == BASE && bases.count() < MOST_BASES {
            (random_base(random), 1)
        } else {
            let kind = if kind == BASE { SUM } else { kind };
            let size = 1 + sizes[left] + sizes[right];
            (pack_type(kind, left as u64, right as u64), size)
        };
        if size <= LARGEST_TYPE && !words.contains(&word) {
            words.push(word);
            sizes.push(size);
        } else if random.chance(5) {
            break;
        }
    }
    words
}

fn random_base(random: &mut Random) -> u64 {
    let name = if random.chance(20) {
        random.below(1 << 30)
    } else {
        random.below(4)
    };
    pack_type(BASE, name as u64, 0)
}

/// A call word with random types out of these; the call does not act.
pub fn random_call(random: &mut Random, usable: &[u64]) -> u64 {
    let number = random.between(0, 3);
    let mut arguments = [0; 3];
    for argument in &mut arguments[..number] {
        *argument = *random.pick(usable);
    }
    pack_call(number as u64, *random.pick(usable), arguments)
}

/// The word of the same call, except that it acts.
pub fn acting(word: u64) -> u64 {
    let (arguments, result, types) = unpack_call(word);
    pack_call(ACTING + arguments, result, types)
}

/// Makes some of the calls act, or all, or none.
fn let_some_act(random: &mut Random, calls: &mut [u64]) {
    let percent = *random.pick(&[0, 0, 30, 60, 100]);
    for word in calls {
        if random.chance(percent) {
            *word = acting(*word);
        }
    }
}
