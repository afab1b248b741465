//! Named shapes whose walks are long: helpers used twice or four times at each level, with and
//! without padding, and a cascade of drops.

use super::deep::{applied_functions, named_deep_shapes};
use super::phrases::*;
use super::terms::random_sample;
use super::{Profile, Sample};
use crate::random::Random;
use oracle::words::*;

// The types and calls of the shapes: a base type B, B to B, B and B, B or B, functions on B to B,
// pairs of them; c of no argument and d of one.
pub const B: u64 = 0;
pub const B_TO_B: u64 = 1;
pub const B_AND_B: u64 = 2;
pub const B_OR_B: u64 = 3;
const ON_FUNCTIONS: u64 = 4;
const TWO_FUNCTIONS: u64 = 5;
pub const C: u64 = 0;
pub const D: u64 = 1;

/// A sample over these types and calls.
pub fn sample(inputs: &[u64], term: Phrase) -> Sample {
    Sample {
        types: vec![
            pack_type(BASE, 0, 0),
            pack_type(FUNCTION_TYPE, B, B),
            pack_type(PRODUCT, B, B),
            pack_type(SUM, B, B),
            pack_type(FUNCTION_TYPE, B_TO_B, B_TO_B),
            pack_type(PRODUCT, B_TO_B, B_TO_B),
        ],
        calls: vec![pack_call(0, B, [0; 3]), pack_call(1, B, [B, 0, 0])],
        inputs: inputs.to_vec(),
        term,
    }
}

/// `λx. let g = (the helper below) in g (… (g x))` at each level above the lowest helper.
fn helper(type_number: u64, levels: usize, times: usize, lowest_body: &Phrase) -> Phrase {
    let body = (0..times).fold(variable(1), |operand, _| apply(&variable(0), &operand));
    let lowest = function(type_number, lowest_body);
    (0..levels).fold(lowest, |below, _| {
        function(type_number, &let_in(&below, &body))
    })
}

/// `first (x, x)` of the variable x just bound.
fn first_of_two(pair_type: u64) -> Phrase {
    first(&pair(pair_type, &variable(0), &variable(0)))
}

/// Helpers that use the one below twice, over `λx. first (x, x)`, applied to the input:
/// 7k + 7 words and 6 · 2^k - 4 steps for k levels.
pub fn doubling(levels: usize) -> Sample {
    let helper = helper(B_TO_B, levels, 2, &first_of_two(B_AND_B));
    sample(&[B], apply(&helper, &variable(0)))
}

/// Helpers that use the one below four times, over the identity, applied to the input.
/// Nine levels: 103 words, 961,210 steps.
pub fn quadrupling(levels: usize) -> Sample {
    let helper = helper(B_TO_B, levels, 4, &variable(0));
    sample(&[B], apply(&helper, &variable(0)))
}

/// `let d v0, … body` with this many lets over the first input: each uses the one before it.
fn call_chain(lets: usize, body: Phrase) -> Phrase {
    let mut term = Phrase::new();
    for _ in 0..lets {
        term.extend([pack_term(LET, 0, 0), pack_term(CALL, D, 0), 0]);
    }
    term.extend(body);
    term
}

/// Doubling behind three lets, of a function of 1,000 words: with 17 levels 786,428 steps of up to
/// 3,371 words.
pub fn padded_doubling(levels: usize) -> Sample {
    const LETS: usize = 332;
    let helper = helper(ON_FUNCTIONS, levels, 2, &first_of_two(TWO_FUNCTIONS));
    // The function's argument is not used: its calls use the three lets outside.
    let mut body = call_chain(LETS, apply(&variable(LETS as u64 + 5), &variable(0)));
    body[2] = pack_term(VARIABLE, 1, 0);
    let padding = function(B_TO_B, &body);
    let term = call_chain(3, apply(&helper, &padding));
    sample(&[B, B_TO_B], term)
}

/// Doubling behind a prefix of lets of three words each, which no step changes.
pub fn prefixed_doubling(levels: usize, lets: usize) -> Sample {
    let helper = helper(B_TO_B, levels, 2, &first_of_two(B_AND_B));
    sample(&[B], call_chain(lets, apply(&helper, &variable(0))))
}

/// `let d (… (d c)) in c`: as many lets as there are calls, each of which a drop frees only when
/// the one after it is gone. 2,730 lets are the most that fit into 8,192 words.
pub fn drop_cascade(lets: usize) -> Sample {
    let bound = (1..lets).fold(call(C, &[]), |argument, _| call(D, &[&argument]));
    sample(&[], let_in(&bound, &call(C, &[])))
}

/// Lets of c whose variables are used only behind them all, by calls of two arguments, and so many
/// unused lets between: each drop looks at the whole term. 6 words for each used let.
pub fn late_uses(used: usize, unused: usize) -> Sample {
    const E: u64 = 2;
    let mut term = Phrase::new();
    for _ in 0..used + unused {
        term.push(pack_term(LET, 0, 0));
        term.extend(call(C, &[]));
    }
    for later in 0..used {
        let number = (used + unused - 1) as u64;
        let last = if later == 0 { number } else { 0 };
        term.push(pack_term(LET, 0, 0));
        term.extend(call(E, &[&variable(number), &variable(last)]));
    }
    term.extend(variable(0));
    let mut sample = sample(&[], term);
    sample.calls.push(pack_call(2, B, [B, B, 0]));
    sample
}

/// As many types as there can be, and a term of one word.
pub fn many_types() -> Sample {
    let mut sample = sample(&[B], variable(0));
    while sample.types.len() < 1024 {
        let last = sample.types.len() as u64 - 1;
        sample.types.push(pack_type(PRODUCT, last, B));
    }
    sample
}

/// `let (case v0, d v0, d v0), …` with this many lets: each moves into both branches, so that the
/// length doubles with each.
pub fn branching(lets: usize) -> Sample {
    let mut term = Phrase::new();
    for depth in 0..lets as u64 {
        let answer = call(D, &[&variable(0)]);
        term.push(pack_term(LET, 0, 0));
        term.extend(case(&variable(depth), &answer, &answer));
    }
    term.extend(call(D, &[&variable(0)]));
    sample(&[B_OR_B], term)
}

/// Random terms of a usual length, 13 to 110 words.
pub fn typical(seed: u64, count: usize) -> Vec<Sample> {
    let mut random = Random::new(seed);
    let mut samples = Vec::new();
    while samples.len() < count {
        let sample = random_sample(&mut random, &Profile::of_size(110));
        if (13..=110).contains(&sample.term.len()) {
            samples.push(sample);
        }
    }
    samples
}

/// A sample with the name of its shape.
pub struct Shape {
    pub name: &'static str,
    pub sample: Sample,
}

pub fn shape(name: &'static str, sample: Sample) -> Shape {
    Shape { name, sample }
}

/// The shapes at full size, for measuring.
pub fn largest_shapes() -> Vec<Shape> {
    let mut shapes = vec![
        shape("doubling, 10 levels", doubling(10)),
        shape("doubling, 14 levels", doubling(14)),
        shape("doubling, 17 levels", doubling(17)),
        shape("doubling, 18 levels: the budget ends", doubling(18)),
        shape("quadrupling, 9 levels", quadrupling(9)),
        shape(
            "doubling, 17 levels, argument of 1,000 words",
            padded_doubling(17),
        ),
        shape(
            "doubling, 14 levels, prefix of 0 words",
            prefixed_doubling(14, 0),
        ),
        shape(
            "doubling, 14 levels, prefix of 999 words",
            prefixed_doubling(14, 333),
        ),
        shape(
            "doubling, 14 levels, prefix of 3,990 words",
            prefixed_doubling(14, 1330),
        ),
        shape("drop cascade, 2,730 lets", drop_cascade(2730)),
        shape("100 drops in 1,023 words, late uses", late_uses(137, 100)),
        shape("100 drops in 4,089 words, late uses", late_uses(648, 100)),
        shape("1,024 types, a term of one word", many_types()),
        shape("branching, 8 lets", branching(8)),
        shape("branching, 30 lets: no capacity", branching(30)),
        shape("1,019 functions applied", applied_functions(1019)),
    ];
    shapes.extend(named_deep_shapes());
    shapes
}

/// The same shapes at sizes that take little time in any implementation.
pub fn moderate_shapes() -> Vec<Shape> {
    vec![
        shape("doubling, 0 levels", doubling(0)),
        shape("doubling, 1 level", doubling(1)),
        shape("doubling, 6 levels", doubling(6)),
        shape("doubling, 9 levels", doubling(9)),
        shape("quadrupling, 1 level", quadrupling(1)),
        shape("quadrupling, 4 levels", quadrupling(4)),
        shape("padded doubling, 5 levels", padded_doubling(5)),
        shape("prefixed doubling, 6 levels", prefixed_doubling(6, 200)),
        shape("drop cascade, 1 let", drop_cascade(1)),
        shape("drop cascade, 150 lets", drop_cascade(150)),
        shape("branching, 1 let", branching(1)),
        shape("branching, 5 lets", branching(5)),
        shape("branching, 30 lets", branching(30)),
    ]
}
