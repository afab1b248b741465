//! Small terms with calls that act: their normal forms and counts, found by hand.

mod small_terms;

use small_terms::{check_shapes, Reduced};
use tools::generate::acting::*;
use tools::generate::phrases::*;

/// The named small terms that are to be reduced, each with its normal form and counts.
fn reduced() -> Vec<Reduced> {
    let begun = let_in(&begin(), &c());
    let stamped = let_in(&stamp(0), &variable(3));
    let one_drop = [0, 0, 0, 0, 0, 0, 0, 0, 0, 1];
    vec![
        ("a plain call", variable(0), one_drop),
        ("a plain call on a function that acts", c(), one_drop),
        ("a half", c(), one_drop),
        ("the other half", c(), one_drop),
        ("both kinds of calls", let_in(&begin(), &begun), one_drop),
        ("an application without acting calls", c(), one_drop),
        (
            "an application that only a plain call uses",
            let_in(&apply(&variable(0), &variable(1)), &c()),
            one_drop,
        ),
        (
            "an application of a known function",
            c(),
            [0, 0, 0, 1, 0, 0, 0, 0, 0, 1],
        ),
        (
            "an argument",
            let_in(&begin(), &d(0)),
            [1, 0, 0, 0, 0, 0, 0, 0, 0, 0],
        ),
        (
            "an argument of an acting call",
            let_in(&begin(), &let_in(&stamp(0), &stamp(0))),
            [2, 1, 0, 0, 0, 0, 0, 0, 0, 0],
        ),
        (
            "what a plain call uses",
            begun.clone(),
            [0, 0, 0, 0, 0, 0, 0, 0, 0, 2],
        ),
        // A pair with a computation is none of the values: it is bound too.
        (
            "a half that is not taken",
            let_in(&begin(), &variable(1)),
            [2, 1, 0, 0, 1, 0, 0, 0, 1, 0],
        ),
        (
            "an operand that is not used",
            begun,
            [1, 0, 0, 1, 0, 0, 0, 0, 0, 0],
        ),
        (
            "a helper",
            let_in(&stamp(0), &d(1)),
            [0, 0, 0, 1, 0, 0, 0, 0, 1, 0],
        ),
        (
            "a helper whose answer is not used",
            let_in(&stamp(0), &variable(1)),
            [0, 1, 0, 1, 0, 0, 0, 0, 1, 1],
        ),
        (
            "a helper that is never applied",
            c(),
            [0, 0, 0, 0, 0, 0, 0, 0, 1, 0],
        ),
        (
            "a bound let",
            let_in(&begin(), &let_in(&c(), &d(0))),
            [0, 1, 0, 0, 0, 0, 0, 0, 0, 0],
        ),
        (
            "a bound let whose answer is not used",
            let_in(&begin(), &variable(1)),
            [0, 1, 0, 0, 0, 0, 0, 0, 0, 1],
        ),
        (
            "a bound case",
            case(&variable(0), &stamped, &stamped),
            [0, 0, 1, 0, 0, 0, 0, 0, 0, 0],
        ),
        (
            "a bound case with one branch that acts",
            case(&variable(0), &variable(2), &stamped),
            [0, 0, 1, 0, 0, 0, 0, 0, 0, 1],
        ),
        (
            "a branch that is never taken",
            d(0),
            [0, 0, 0, 0, 0, 0, 1, 0, 0, 0],
        ),
        (
            "a subject",
            let_in(&call(CHOOSE, &[]), &case(&variable(0), &d(0), &c())),
            [1, 0, 0, 0, 0, 0, 0, 0, 0, 0],
        ),
        (
            "a subject that no branch uses",
            let_in(
                &call(CHOOSE, &[]),
                &case(&variable(0), &c(), &let_in(&begin(), &c())),
            ),
            [1, 0, 0, 0, 0, 0, 0, 0, 0, 0],
        ),
    ]
}

/// The others.
const NORMAL_FORMS: [&str; 11] = [
    "no argument",
    "one argument",
    "two arguments",
    "three arguments",
    "under a function",
    "an application",
    "an application beside a call that is not named",
    "an application under a function",
    "alone",
    "a used answer",
    "what an acting call uses",
];

#[test]
fn small_terms() {
    check_shapes(small_acting(), reduced(), &NORMAL_FORMS);
}
