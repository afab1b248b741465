//! Shapes as deep as the limits allow: 1,024 types, 4,096 words of input, 8,192 words on the way.

use super::boundaries::{nested_calls, normal_chain, unused_lets};
use super::phrases::*;
use super::shapes::{sample, shape, Shape, B, B_OR_B, C};
use super::Sample;
use oracle::words::*;

/// Adds the types t(1) to t(levels), each made of B and the one before it; answers their numbers,
/// from t(0), which is B.
fn add_types(sample: &mut Sample, levels: usize, word: fn(u64) -> u64) -> Vec<u64> {
    let mut numbers = vec![B];
    for level in 0..levels {
        let new = word(numbers[level]);
        let known = sample.types.iter().position(|&word| word == new);
        let number = known.unwrap_or_else(|| {
            sample.types.push(new);
            sample.types.len() - 1
        });
        numbers.push(number as u64);
    }
    numbers
}

/// `first (… (first ((v0, v0), … v0)))`: pairs nested to the left, and taken apart.
pub fn nested_pairs(levels: usize) -> Sample {
    let mut sample = sample(&[B], Phrase::new());
    let types = add_types(&mut sample, levels, |left| pack_type(PRODUCT, left, B));
    let pairs = (0..levels).fold(variable(0), |left, level| {
        pair(types[level + 1], &left, &variable(0))
    });
    sample.term = (0..levels).fold(pairs, |operand, _| first(&operand));
    sample
}

/// The same pairs as a value.
pub fn pair_value(levels: usize) -> Sample {
    let mut sample = nested_pairs(levels);
    sample.term.drain(..levels);
    sample
}

/// `left (… (left v0))` as the subject of as many cases, each in the left branch of the one before.
pub fn nested_injections(levels: usize) -> Sample {
    let mut sample = sample(&[B], Phrase::new());
    let types = add_types(&mut sample, levels, |left| pack_type(SUM, left, B));
    let injections = (0..levels).fold(variable(0), |operand, level| {
        left(types[level + 1], &operand)
    });
    let inside = (1..levels).fold(variable(0), |branch, _| {
        case(&variable(0), &branch, &variable(0))
    });
    sample.term = case(&injections, &inside, &variable(0));
    sample
}

/// `let (let (… c …, v0), v0), v0`: lets nested in what they bind.
pub fn nested_lets(levels: usize) -> Sample {
    let term = (0..levels).fold(call(C, &[]), |bound, _| let_in(&bound, &variable(0)));
    sample(&[], term)
}

/// `((f v) v) … v`: an input applied to this many operands.
pub fn nested_applications(levels: usize) -> Sample {
    let mut sample = sample(&[B], Phrase::new());
    let types = add_types(&mut sample, levels, |right| {
        pack_type(FUNCTION_TYPE, B, right)
    });
    sample.inputs.push(types[levels]);
    sample.term = (0..levels).fold(variable(1), |head, _| apply(&head, &variable(0)));
    sample
}

/// `λx. λx. … x`: functions nested in their bodies.
pub fn nested_functions(levels: usize) -> Sample {
    let mut sample = sample(&[], Phrase::new());
    let types = add_types(&mut sample, levels, |right| {
        pack_type(FUNCTION_TYPE, B, right)
    });
    sample.term = (0..levels).fold(variable(0), |body, level| function(types[level + 1], &body));
    sample
}

/// The same functions applied to this many operands.
pub fn applied_functions(levels: usize) -> Sample {
    let mut sample = nested_functions(levels);
    sample.inputs.push(B);
    let functions = sample.term.clone();
    sample.term = (0..levels).fold(functions, |head, _| apply(&head, &variable(0)));
    sample
}

/// `case v0, (case v1, (…), c), c`: cases nested in their left branches, a normal form.
pub fn nested_cases(levels: usize) -> Sample {
    let term = (0..levels as u64)
        .rev()
        .fold(call(C, &[]), |branch, depth| {
            case(&variable(depth), &branch, &call(C, &[]))
        });
    sample(&[B_OR_B], term)
}

/// `case (case (… v0 …), left v0, right v0), left v0, right v0`: cases nested in their subjects.
pub fn nested_subjects(levels: usize) -> Sample {
    let (on_left, on_right) = (left(B_OR_B, &variable(0)), right(B_OR_B, &variable(0)));
    let term = (0..levels).fold(variable(0), |subject, _| {
        case(&subject, &on_left, &on_right)
    });
    sample(&[B_OR_B], term)
}

/// All deep shapes at full size.
pub fn named_deep_shapes() -> Vec<Shape> {
    vec![
        shape("pairs, 1,019 deep, taken apart", nested_pairs(1019)),
        shape("pairs, 1,019 deep, a value", pair_value(1019)),
        shape(
            "injections, 1,019 deep, 1,019 cases",
            nested_injections(1019),
        ),
        shape("lets, 2,047 deep in what they bind", nested_lets(2047)),
        shape(
            "lets, 2,047 deep in their bodies, unused",
            unused_lets(4096),
        ),
        shape("lets, 1,365 deep, a normal form", normal_chain(1365)),
        shape("applications, 1,019 deep", nested_applications(1019)),
        shape("functions, 1,019 deep", nested_functions(1019)),
        shape("cases, 1,365 deep in branches", nested_cases(1365)),
        shape("cases, 585 deep in subjects", nested_subjects(585)),
        shape("calls, 2,731 deep", nested_calls(2731)),
        shape("calls, 2,732 deep: no capacity", nested_calls(2732)),
    ]
}

/// The same shapes at depths that take little time in any implementation.
pub fn moderate_deep_shapes() -> Vec<Shape> {
    vec![
        shape("nested pairs", nested_pairs(60)),
        shape("a pair value", pair_value(60)),
        shape("nested injections", nested_injections(60)),
        shape("nested lets", nested_lets(60)),
        shape("unused lets", unused_lets(120)),
        shape("a normal chain", normal_chain(60)),
        shape("nested applications", nested_applications(60)),
        shape("nested functions", nested_functions(60)),
        shape("applied functions", applied_functions(60)),
        shape("nested cases", nested_cases(60)),
        shape("nested subjects", nested_subjects(30)),
        shape("nested calls", nested_calls(60)),
    ]
}
