//! Terms that break one typing rule each, over one fixed set of tables.

use super::Sample;
use crate::random::Random;
use oracle::coding::encode;
use oracle::term::Term;
use oracle::words::*;

// Types: two base types, and a function, a product and a sum of both.
const A: u32 = 0;
const B: u32 = 1;
const FROM_A_TO_B: u32 = 2;
const A_AND_B: u32 = 3;
const A_OR_B: u32 = 4;

fn tables_with(term: &Term) -> Sample {
    let (a, b) = (u64::from(A), u64::from(B));
    Sample {
        types: vec![
            pack_type(BASE, 0, 0),
            pack_type(BASE, 1, 0),
            pack_type(FUNCTION_TYPE, a, b),
            pack_type(PRODUCT, a, b),
            pack_type(SUM, a, b),
        ],
        calls: vec![
            pack_call(0, a, [0; 3]),
            pack_call(0, b, [0; 3]),
            pack_call(1, b, [a, 0, 0]),
            pack_call(2, a, [a, b, 0]),
            pack_call(3, b, [a, b, a]),
        ],
        inputs: vec![a],
        term: encode(term),
    }
}

/// A constant of type A.
fn a() -> Term {
    Term::Call(0, Vec::new())
}

/// A constant of type B.
fn b() -> Term {
    Term::Call(1, Vec::new())
}

fn variable() -> Term {
    Term::Variable(0)
}

fn call(number: u32, arguments: &[Term]) -> Term {
    Term::Call(number, arguments.to_vec())
}

fn function(type_number: u32, body: Term) -> Term {
    Term::Function(type_number, Box::new(body))
}

fn apply(head: Term, operand: Term) -> Term {
    Term::Application(Box::new(head), Box::new(operand))
}

fn let_in(bound: Term, body: Term) -> Term {
    Term::Let(Box::new(bound), Box::new(body))
}

fn pair(type_number: u32, left: Term, right: Term) -> Term {
    Term::Pair(type_number, Box::new(left), Box::new(right))
}

fn first(operand: Term) -> Term {
    Term::First(Box::new(operand))
}

fn second(operand: Term) -> Term {
    Term::Second(Box::new(operand))
}

fn left(type_number: u32, operand: Term) -> Term {
    Term::Left(type_number, Box::new(operand))
}

fn right(type_number: u32, operand: Term) -> Term {
    Term::Right(type_number, Box::new(operand))
}

fn case(subject: Term, left: Term, right: Term) -> Term {
    Term::Case(Box::new(subject), Box::new(left), Box::new(right))
}

/// The broken terms; each has one fault at its first node.
fn broken_terms() -> Vec<Term> {
    vec![
        // A function's type is no function type, or its right part is not the body's type.
        function(A, a()),
        function(A_AND_B, b()),
        function(A_OR_B, b()),
        function(FROM_A_TO_B, a()),
        function(FROM_A_TO_B, variable()),
        // A head that is no function; an operand that has not the left part.
        apply(a(), a()),
        apply(pair(A_AND_B, a(), b()), a()),
        apply(function(FROM_A_TO_B, b()), b()),
        apply(function(FROM_A_TO_B, b()), function(FROM_A_TO_B, b())),
        // A let's variable has the bound part's type.
        let_in(b(), call(2, &[variable()])),
        // A pair's type is no product, or its parts do not agree.
        pair(A, a(), b()),
        pair(FROM_A_TO_B, a(), b()),
        pair(A_OR_B, a(), b()),
        pair(A_AND_B, b(), b()),
        pair(A_AND_B, a(), a()),
        pair(A_AND_B, b(), a()),
        // First and second of what is no product.
        first(a()),
        first(left(A_OR_B, a())),
        first(function(FROM_A_TO_B, b())),
        second(b()),
        second(right(A_OR_B, b())),
        second(function(FROM_A_TO_B, b())),
        // An injection's type is no sum, or its operand does not agree.
        left(A, a()),
        left(FROM_A_TO_B, a()),
        left(A_AND_B, a()),
        left(A_OR_B, b()),
        right(A, b()),
        right(FROM_A_TO_B, b()),
        right(A_AND_B, b()),
        right(A_OR_B, a()),
        // A subject that is no sum; branches of two types.
        case(a(), a(), a()),
        case(pair(A_AND_B, a(), b()), a(), a()),
        case(function(FROM_A_TO_B, b()), b(), b()),
        case(left(A_OR_B, a()), a(), b()),
        case(right(A_OR_B, b()), b(), a()),
        case(left(A_OR_B, a()), variable(), variable()),
        // A branch's variable has its own part of the sum.
        case(left(A_OR_B, a()), b(), call(2, &[variable()])),
        // An argument that has not the type of its place.
        call(2, &[b()]),
        call(3, &[b(), b()]),
        call(3, &[a(), a()]),
        call(4, &[b(), b(), a()]),
        call(4, &[a(), a(), a()]),
        call(4, &[a(), b(), b()]),
    ]
}

/// All broken terms, each with its tables.
pub fn broken_samples() -> Vec<Sample> {
    broken_terms().iter().map(tables_with).collect()
}

/// A random broken term, sometimes deeper in a larger term.
pub fn broken_sample(random: &mut Random) -> Sample {
    let mut term = random.pick(&broken_terms()).clone();
    while random.chance(40) {
        term = match random.below(5) {
            0 => let_in(term, a()),
            1 => let_in(a(), term),
            2 => case(left(A_OR_B, a()), term, b()),
            3 => case(left(A_OR_B, a()), b(), term),
            _ => let_in(function(FROM_A_TO_B, let_in(term, b())), a()),
        };
    }
    tables_with(&term)
}
