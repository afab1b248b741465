//! Small terms with units: alone, in pairs and injections, bound, applied to, taken and given.

use super::phrases::*;
use super::shapes::{shape, Shape};
use super::Sample;
use oracle::words::*;

// Types: a base type, the unit type, and functions, products and sums of both.
pub const B: u64 = 0;
pub const U: u64 = 1;
pub const U_TO_B: u64 = 2;
pub const B_OR_U: u64 = 3;
pub const B_AND_U: u64 = 4;
pub const U_AND_U: u64 = 5;
pub const U_OR_U: u64 = 6;
pub const B_TO_U: u64 = 7;

// Calls: c of no argument and d of one, on the base type; one that gives a unit, one that takes a
// unit, one that takes a value of each type, and a choice, which is B or a unit.
pub const C: u64 = 0;
pub const D: u64 = 1;
pub const GIVE: u64 = 2;
pub const TAKE: u64 = 3;
pub const BOTH: u64 = 4;
pub const CHOICE: u64 = 5;

/// A sample over these types and calls.
pub fn sample(inputs: &[u64], term: Phrase) -> Sample {
    Sample {
        types: vec![
            pack_type(BASE, 0, 0),
            pack_type(UNIT_TYPE, 0, 0),
            pack_type(FUNCTION_TYPE, U, B),
            pack_type(SUM, B, U),
            pack_type(PRODUCT, B, U),
            pack_type(PRODUCT, U, U),
            pack_type(SUM, U, U),
            pack_type(FUNCTION_TYPE, B, U),
        ],
        calls: vec![
            pack_call(0, B, [0; 3]),
            pack_call(1, B, [B, 0, 0]),
            pack_call(0, U, [0; 3]),
            pack_call(1, B, [U, 0, 0]),
            pack_call(2, B, [B, U, 0]),
            pack_call(0, B_OR_U, [0; 3]),
        ],
        inputs: inputs.to_vec(),
        term,
    }
}

pub fn c() -> Phrase {
    call(C, &[])
}

/// A call on the variable just bound, which is a unit.
fn take() -> Phrase {
    call(TAKE, &[&variable(0)])
}

/// A call on the variable just bound, which is of type B.
fn d() -> Phrase {
    call(D, &[&variable(0)])
}

/// A unit that the sample's tables have.
pub fn u() -> Phrase {
    unit(U)
}

/// A part under so many unused lets.
fn under_lets(lets: usize, part: Phrase) -> Phrase {
    let mut term = [pack_term(LET, 0, 0), pack_term(CALL, C, 0)].repeat(lets);
    term.extend(part);
    term
}

/// Units alone and in values.
fn values() -> Vec<Shape> {
    let units = pair(U_AND_U, &u(), &u());
    let function_of_unit = function(B_TO_U, &u());
    vec![
        shape("a unit", sample(&[], u())),
        shape("an input", sample(&[B, U], variable(1))),
        shape("a pair of units", sample(&[], units.clone())),
        shape("an injected unit", sample(&[], right(B_OR_U, &u()))),
        shape("a choice without contents", sample(&[], left(U_OR_U, &u()))),
        shape("a function of a unit", sample(&[], function_of_unit)),
        shape("a half of two units", sample(&[], second(&units))),
        shape("a unit under binders", sample(&[], under_lets(9, u()))),
        shape(
            "a pair with a computation",
            sample(&[], pair(B_AND_U, &call(D, &[&c()]), &u())),
        ),
        shape(
            "the half that is no unit",
            sample(&[B], first(&pair(B_AND_U, &variable(0), &u()))),
        ),
    ]
}

/// Units that are bound, put in and dropped.
fn bound() -> Vec<Shape> {
    let choice = case(&variable(0), &u(), &variable(0));
    vec![
        shape("a let of a unit", sample(&[], let_in(&u(), &take()))),
        shape("an unused let", sample(&[], let_in(&u(), &c()))),
        shape(
            "a let of an input",
            sample(&[U], let_in(&variable(0), &take())),
        ),
        shape(
            "a given unit",
            sample(&[], let_in(&call(GIVE, &[]), &take())),
        ),
        shape(
            "a dropped unit",
            sample(&[], let_in(&call(GIVE, &[]), &u())),
        ),
        shape(
            "a let of a let of a unit",
            sample(&[], let_in(&let_in(&c(), &u()), &take())),
        ),
        shape(
            "a let of a case with a unit",
            sample(&[B_OR_U], let_in(&choice, &take())),
        ),
        shape(
            "a let of a pair of units",
            sample(
                &[],
                let_in(
                    &pair(U_AND_U, &u(), &u()),
                    &call(TAKE, &[&first(&variable(0))]),
                ),
            ),
        ),
    ]
}

/// Helpers that take nothing, calls on units, and cases with nothing in a branch.
fn used() -> Vec<Shape> {
    let helper = function(U_TO_B, &call(D, &[&c()]));
    let once = apply(&variable(0), &u());
    let in_a_pair = pair(B_AND_U, &once, &u());
    // The first answer is not used; under its let the helper is variable 1.
    let again = pair(B_AND_U, &apply(&variable(1), &u()), &u());
    vec![
        shape("a helper", sample(&[], let_in(&helper, &once))),
        shape(
            "a helper twice",
            sample(&[], let_in(&helper, &let_in(&once, &again))),
        ),
        shape(
            "a helper in a pair",
            sample(&[], let_in(&helper, &in_a_pair)),
        ),
        shape(
            "a helper of a given unit",
            sample(&[], let_in(&helper, &apply(&variable(0), &call(GIVE, &[])))),
        ),
        shape(
            "a helper that uses its unit",
            sample(&[], apply(&function(U_TO_B, &take()), &u())),
        ),
        shape(
            "an input that takes nothing",
            sample(&[U_TO_B], apply(&variable(0), &u())),
        ),
        shape(
            "an input that gives nothing",
            sample(&[B_TO_U], call(TAKE, &[&apply(&variable(0), &c())])),
        ),
        shape("a unit argument", sample(&[], call(TAKE, &[&u()]))),
        shape(
            "the last argument",
            sample(&[B], call(BOTH, &[&variable(0), &u()])),
        ),
        shape(
            "an argument behind a computation",
            sample(&[], call(BOTH, &[&c(), &u()])),
        ),
        shape(
            "a case on B or unit",
            sample(&[], case(&call(CHOICE, &[]), &d(), &take())),
        ),
        shape(
            "a case on an injected unit",
            sample(&[], case(&right(B_OR_U, &u()), &variable(0), &take())),
        ),
        shape(
            "a case without contents",
            sample(&[U_OR_U], case(&variable(0), &c(), &take())),
        ),
        shape(
            "a case with units in its branches",
            sample(&[B_OR_U], case(&variable(0), &u(), &variable(0))),
        ),
    ]
}

/// All of them.
pub fn small_units() -> Vec<Shape> {
    let shapes = values().into_iter().chain(bound());
    shapes.chain(used()).collect()
}
