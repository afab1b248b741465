//! Shapes of which every leaf reads an input, up to 8,192 words: each reads all 256 inputs if it
//! has as many leaves.

use super::phrases::*;
use super::places::{sample_with_inputs, F};
use super::shapes::{shape, Shape, B, B_TO_B, D};
use super::Sample;
use oracle::checks::LONGEST_TO_EXAMINE;
use oracle::words::*;

const INPUTS: usize = 256;

/// The inputs in turn, each as a variable under so many binders.
struct Inputs {
    next: u64,
}

impl Inputs {
    fn new() -> Inputs {
        Inputs { next: 0 }
    }

    fn read(&mut self, binders: u64) -> u64 {
        let input = self.next;
        self.next = (input + 1) % INPUTS as u64;
        pack_term(VARIABLE, binders + input, 0)
    }
}

/// `d (f (f (… , v, v), v, v))`: calls of three arguments nested in the first, so that as many
/// parts as possible are still to come. 3k + 2 words for k levels.
pub fn calls_of_inputs(levels: usize) -> Sample {
    let mut inputs = Inputs::new();
    let mut term = call(D, &[]);
    term.extend(call(F, &[]).repeat(levels));
    term.extend((0..2 * levels + 1).map(|_| inputs.read(0)));
    sample_with_inputs(INPUTS, term)
}

/// `let d v, let d v, … d v`: unused lets. 3k + 2 words for k lets.
pub fn lets_of_inputs(lets: usize) -> Sample {
    let mut inputs = Inputs::new();
    let mut term = Phrase::new();
    for binders in 0..lets as u64 {
        term.push(pack_term(LET, 0, 0));
        term.extend(call(D, &[&vec![inputs.read(binders)]]));
    }
    term.extend(call(D, &[&vec![inputs.read(lets as u64)]]));
    sample_with_inputs(INPUTS, term)
}

/// `first` of a tree of pairs of this height, 1 or more: 2^(height + 1) words.
pub fn pairs_of_inputs(height: usize) -> Sample {
    let mut sample = sample_with_inputs(INPUTS, Phrase::new());
    let mut types = vec![B];
    for level in 0..height {
        let new = pack_type(PRODUCT, types[level], types[level]);
        let known = sample.types.iter().position(|&word| word == new);
        types.push(known.unwrap_or(sample.types.len()) as u64);
        if known.is_none() {
            sample.types.push(new);
        }
    }
    let mut inputs = Inputs::new();
    sample.term = first(&pair_tree(&types, height, &mut inputs));
    sample
}

fn pair_tree(types: &[u64], height: usize, inputs: &mut Inputs) -> Phrase {
    if height == 0 {
        return vec![inputs.read(0)];
    }
    let left = pair_tree(types, height - 1, inputs);
    pair(types[height], &left, &pair_tree(types, height - 1, inputs))
}

/// `(λ. (λ. … d v) v) v`: functions nested in their bodies, each applied to an input. 3k + 2 words
/// for k levels.
pub fn functions_of_inputs(levels: usize) -> Sample {
    let mut inputs = Inputs::new();
    let level = [pack_term(APPLICATION, 0, 0), pack_term(FUNCTION, 0, B_TO_B)];
    let mut term = level.repeat(levels);
    term.extend(call(D, &[&vec![inputs.read(levels as u64)]]));
    let outwards = (0..levels as u64).rev();
    term.extend(outwards.map(|binders| inputs.read(binders)));
    sample_with_inputs(INPUTS, term)
}

/// The shapes at 8,192 words.
pub fn longest_readings() -> [Shape; 4] {
    let levels = (LONGEST_TO_EXAMINE - 2) / 3;
    [
        shape("calls, 2,730 deep", calls_of_inputs(levels)),
        shape("lets, 2,730 deep, unused", lets_of_inputs(levels)),
        shape("pairs, a tree of 4,096 leaves", pairs_of_inputs(12)),
        shape(
            "functions, 2,730 deep, applied",
            functions_of_inputs(levels),
        ),
    ]
}
