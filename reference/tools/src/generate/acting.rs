//! Small terms with calls that act: unused and used, beside other computations, moved, in helpers
//! and in branches.

use super::phrases::*;
use super::shapes::{self, shape, Shape, B, B_AND_B, B_OR_B, B_TO_B, C, D};
use super::Sample;
use oracle::words::*;

// The calls beside c and d. Five act: of none, one, two and three arguments, and one that gives a
// choice. The last does not act, and takes a function.
pub const BEGIN: u64 = 2;
pub const STAMP: u64 = 3;
pub const STORE: u64 = 4;
pub const MERGE: u64 = 5;
pub const CHOOSE: u64 = 6;
pub const TAKE: u64 = 7;

/// A sample over the types of the shapes, with these calls.
pub fn sample(inputs: &[u64], term: Phrase) -> Sample {
    let mut sample = shapes::sample(inputs, term);
    sample.calls.extend([
        pack_call(ACTING, B, [0; 3]),
        pack_call(ACTING + 1, B, [B, 0, 0]),
        pack_call(ACTING + 2, B, [B, B, 0]),
        pack_call(ACTING + 3, B, [B, B, B]),
        pack_call(ACTING, B_OR_B, [0; 3]),
        pack_call(1, B, [B_TO_B, 0, 0]),
    ]);
    sample
}

pub fn c() -> Phrase {
    call(C, &[])
}

/// A call that does not act, on a variable.
pub fn d(number: u64) -> Phrase {
    call(D, &[&variable(number)])
}

pub fn begin() -> Phrase {
    call(BEGIN, &[])
}

/// A call that acts, on a variable.
pub fn stamp(number: u64) -> Phrase {
    call(STAMP, &[&variable(number)])
}

/// Lets whose variables are not used.
fn unused() -> Vec<Shape> {
    let stored = call(STORE, &[&variable(0), &variable(1)]);
    let merged = call(MERGE, &[&variable(0), &variable(1), &variable(0)]);
    vec![
        shape("no argument", sample(&[B], let_in(&begin(), &variable(1)))),
        shape("one argument", sample(&[B], let_in(&stamp(0), &c()))),
        shape("two arguments", sample(&[B, B], let_in(&stored, &c()))),
        shape("three arguments", sample(&[B, B], let_in(&merged, &c()))),
        shape("a plain call", sample(&[B], let_in(&d(0), &variable(1)))),
        shape(
            "a plain call on a function that acts",
            sample(
                &[],
                let_in(&call(TAKE, &[&function(B_TO_B, &stamp(0))]), &c()),
            ),
        ),
        shape(
            "a half",
            sample(&[B_AND_B], let_in(&first(&variable(0)), &c())),
        ),
        shape(
            "the other half",
            sample(&[B_AND_B], let_in(&second(&variable(0)), &c())),
        ),
        shape(
            "both kinds of calls",
            sample(
                &[],
                let_in(&begin(), &let_in(&c(), &let_in(&begin(), &c()))),
            ),
        ),
        shape(
            "under a function",
            sample(&[], function(B_TO_B, &let_in(&stamp(0), &variable(1)))),
        ),
    ]
}

/// `let f x, c`, where f and x are inputs.
fn unused_application() -> (Vec<u64>, Phrase) {
    let term = let_in(&apply(&variable(0), &variable(1)), &c());
    (vec![B_TO_B, B], term)
}

/// Unused lets of applications, over tables with an acting call and without.
fn applications() -> Vec<Shape> {
    let (inputs, term) = unused_application();
    let mut beside_unnamed = shapes::sample(&inputs, term.clone());
    beside_unnamed.calls.push(pack_call(ACTING, B, [0; 3]));
    let without = shapes::sample(&inputs, term.clone());
    let applied = apply(&variable(0), &variable(1));
    let inner = apply(&variable(1), &variable(0));
    vec![
        shape("an application", sample(&inputs, term)),
        shape(
            "an application beside a call that is not named",
            beside_unnamed,
        ),
        shape("an application without acting calls", without),
        shape(
            "an application under a function",
            sample(&[B_TO_B], function(B_TO_B, &let_in(&inner, &variable(1)))),
        ),
        shape(
            "an application that only a plain call uses",
            sample(&inputs, let_in(&applied, &let_in(&d(0), &c()))),
        ),
        shape(
            "an application of a known function",
            sample(
                &[B],
                let_in(&apply(&function(B_TO_B, &d(0)), &variable(0)), &c()),
            ),
        ),
    ]
}

/// Acting calls that are used, and what they use.
fn used() -> Vec<Shape> {
    vec![
        shape("alone", sample(&[], begin())),
        shape("a used answer", sample(&[], let_in(&begin(), &d(0)))),
        shape("an argument", sample(&[], call(D, &[&begin()]))),
        shape(
            "an argument of an acting call",
            sample(&[], call(STAMP, &[&call(STAMP, &[&begin()])])),
        ),
        shape(
            "what an acting call uses",
            sample(&[], let_in(&c(), &let_in(&stamp(0), &c()))),
        ),
        shape(
            "what a plain call uses",
            sample(&[], let_in(&begin(), &let_in(&d(0), &let_in(&d(0), &c())))),
        ),
        shape(
            "a half that is not taken",
            sample(&[B], first(&pair(B_AND_B, &variable(0), &begin()))),
        ),
        shape(
            "an operand that is not used",
            sample(&[], apply(&function(B_TO_B, &c()), &begin())),
        ),
    ]
}

/// Acting calls in helpers, branches and bound parts.
fn inside() -> Vec<Shape> {
    let helper = function(B_TO_B, &let_in(&stamp(0), &d(1)));
    let cleared = case(&variable(0), &stamp(0), &stamp(0));
    let cleared_on_one_side = case(&variable(0), &d(0), &stamp(0));
    vec![
        shape(
            "a helper",
            sample(&[B], let_in(&helper, &apply(&variable(0), &variable(1)))),
        ),
        shape(
            "a helper whose answer is not used",
            sample(
                &[B],
                let_in(
                    &helper,
                    &let_in(&apply(&variable(0), &variable(1)), &variable(2)),
                ),
            ),
        ),
        shape(
            "a helper that is never applied",
            sample(&[], let_in(&helper, &c())),
        ),
        shape(
            "a bound let",
            sample(&[], let_in(&let_in(&begin(), &c()), &d(0))),
        ),
        shape(
            "a bound let whose answer is not used",
            sample(&[B], let_in(&let_in(&begin(), &c()), &variable(1))),
        ),
        shape(
            "a bound case",
            sample(&[B_OR_B, B], let_in(&cleared, &variable(2))),
        ),
        shape(
            "a bound case with one branch that acts",
            sample(&[B_OR_B, B], let_in(&cleared_on_one_side, &variable(2))),
        ),
        shape(
            "a branch that is never taken",
            sample(&[B], case(&left(B_OR_B, &variable(0)), &d(0), &stamp(0))),
        ),
        shape(
            "a subject",
            sample(&[], case(&call(CHOOSE, &[]), &d(0), &c())),
        ),
        shape(
            "a subject that no branch uses",
            sample(&[], case(&call(CHOOSE, &[]), &c(), &let_in(&begin(), &c()))),
        ),
    ]
}

/// All of them.
pub fn small_acting() -> Vec<Shape> {
    let shapes = unused().into_iter().chain(applications());
    shapes.chain(used()).chain(inside()).collect()
}
