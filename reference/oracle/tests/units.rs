//! Small terms with units: their normal forms and counts, found by hand.

mod small_terms;

use small_terms::{check_shapes, Reduced};
use tools::generate::phrases::*;
use tools::generate::units::*;

/// A call on the variable just bound.
fn on_bound(number: u64) -> Phrase {
    call(number, &[&variable(0)])
}

/// The named small terms that are to be reduced, each with its normal form and counts.
fn reduced() -> Vec<Reduced> {
    let taken = call(TAKE, &[&u()]);
    let helped = let_in(&c(), &on_bound(D));
    let helped_in_pair = let_in(
        &c(),
        &let_in(&on_bound(D), &pair(B_AND_U, &variable(0), &u())),
    );
    let chosen = let_in(
        &call(CHOICE, &[]),
        &case(&variable(0), &on_bound(D), &on_bound(TAKE)),
    );
    vec![
        ("a half of two units", u(), [0, 0, 0, 0, 0, 1, 0, 0, 0, 0]),
        (
            "the half that is no unit",
            variable(0),
            [0, 0, 0, 0, 1, 0, 0, 0, 0, 0],
        ),
        ("a unit under binders", u(), [0, 0, 0, 0, 0, 0, 0, 0, 0, 9]),
        (
            "a pair with a computation",
            helped_in_pair.clone(),
            [2, 1, 0, 0, 0, 0, 0, 0, 0, 0],
        ),
        (
            "a let of a unit",
            taken.clone(),
            [0, 0, 0, 0, 0, 0, 0, 0, 1, 0],
        ),
        ("an unused let", c(), [0, 0, 0, 0, 0, 0, 0, 0, 1, 0]),
        (
            "a let of an input",
            on_bound(TAKE),
            [0, 0, 0, 0, 0, 0, 0, 0, 1, 0],
        ),
        ("a dropped unit", u(), [0, 0, 0, 0, 0, 0, 0, 0, 0, 1]),
        (
            "a let of a let of a unit",
            taken.clone(),
            [0, 1, 0, 0, 0, 0, 0, 0, 1, 1],
        ),
        (
            "a let of a case with a unit",
            case(&variable(0), &taken, &on_bound(TAKE)),
            [0, 0, 1, 0, 0, 0, 0, 0, 2, 0],
        ),
        (
            "a let of a pair of units",
            taken.clone(),
            [1, 0, 0, 0, 1, 0, 0, 0, 2, 0],
        ),
        ("a helper", helped.clone(), [1, 0, 0, 1, 0, 0, 0, 0, 1, 0]),
        (
            "a helper twice",
            helped_in_pair.clone(),
            [2, 2, 0, 2, 0, 0, 0, 0, 1, 2],
        ),
        (
            "a helper in a pair",
            helped_in_pair,
            [2, 1, 0, 1, 0, 0, 0, 0, 1, 0],
        ),
        // The unit that is given is not used.
        (
            "a helper of a given unit",
            helped,
            [2, 0, 0, 1, 0, 0, 0, 0, 1, 1],
        ),
        (
            "a helper that uses its unit",
            taken.clone(),
            [0, 0, 0, 1, 0, 0, 0, 0, 0, 0],
        ),
        (
            "a case on B or unit",
            chosen,
            [1, 0, 0, 0, 0, 0, 0, 0, 0, 0],
        ),
        (
            "a case on an injected unit",
            taken,
            [0, 0, 0, 0, 0, 0, 0, 1, 0, 0],
        ),
        (
            "an input that gives nothing",
            let_in(
                &c(),
                &let_in(&apply(&variable(1), &variable(0)), &on_bound(TAKE)),
            ),
            [2, 1, 0, 0, 0, 0, 0, 0, 0, 0],
        ),
        (
            "an argument behind a computation",
            let_in(&c(), &call(BOTH, &[&variable(0), &u()])),
            [1, 0, 0, 0, 0, 0, 0, 0, 0, 0],
        ),
    ]
}

/// The others.
const NORMAL_FORMS: [&str; 12] = [
    "a unit",
    "an input",
    "a pair of units",
    "an injected unit",
    "a choice without contents",
    "a function of a unit",
    "an input that takes nothing",
    "a given unit",
    "a unit argument",
    "the last argument",
    "a case without contents",
    "a case with units in its branches",
];

#[test]
fn small_terms() {
    check_shapes(small_units(), reduced(), &NORMAL_FORMS);
}
