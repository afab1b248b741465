//! Small terms for the ceilings: one step of each rule, each rule once, and one rule many times.

use super::acting::{c, d};
use super::phrases::*;
use super::shapes::{sample, B, B_AND_B, B_OR_B, B_TO_B, D};
use super::Sample;
use oracle::rules::Rule;

/// For each rule, in order, a term whose walk is one step, of that rule.
pub fn one_step_terms() -> [(Rule, Sample); 10] {
    let both = pair(B_AND_B, &variable(0), &variable(0));
    let on_left = case(&left(B_OR_B, &variable(0)), &d(0), &d(1));
    let on_right = case(&right(B_OR_B, &variable(0)), &d(1), &d(0));
    let bound_let = let_in(&c(), &d(0));
    let bound_case = case(&variable(0), &d(0), &d(0));
    [
        (Rule::LetInsertion, sample(&[], call(D, &[&c()]))),
        (Rule::LetOfLet, sample(&[], let_in(&bound_let, &d(0)))),
        (
            Rule::LetOfCase,
            sample(&[B_OR_B], let_in(&bound_case, &d(0))),
        ),
        (
            Rule::Apply,
            sample(&[B], apply(&function(B_TO_B, &d(0)), &variable(0))),
        ),
        (Rule::First, sample(&[B], first(&both))),
        (Rule::Second, sample(&[B], second(&both))),
        (Rule::LeftCase, sample(&[B], on_left)),
        (Rule::RightCase, sample(&[B], on_right)),
        (Rule::LetValue, sample(&[B], let_in(&variable(0), &d(0)))),
        (Rule::Drop, sample(&[B], let_in(&c(), &variable(1)))),
    ]
}

/// The order in which the walk of `each_rule_once` uses them.
pub const ORDER_OF_USE: [Rule; 10] = [
    Rule::LetInsertion,
    Rule::LetValue,
    Rule::Apply,
    Rule::LeftCase,
    Rule::RightCase,
    Rule::First,
    Rule::Second,
    Rule::LetOfLet,
    Rule::LetOfCase,
    Rule::Drop,
];

/// A term over inputs v and s, of which s is a choice, whose walk uses each rule once:
///
/// `let v, (λ. case (left v), (case (right v), d v, let c, BRANCHES), d v) v`, where BRANCHES are cases
/// on s with the branches `first (v, v)`, `second (v, v)`, `let (let c, d v0), d v0`,
/// `let (case s, d v0, d v0), d v0` and `d c`.
pub fn each_rule_once() -> Sample {
    // The inputs v and s under so many binders.
    let v = variable;
    let s = |binders: u64| variable(binders + 1);
    let both = |binders| pair(B_AND_B, &v(binders), &v(binders));
    let bound_let = let_in(&let_in(&c(), &d(0)), &d(0));
    let bound_case = let_in(&case(&s(9), &d(0), &d(0)), &d(0));
    let branches = case(&s(8), &bound_case, &call(D, &[&c()]));
    let branches = case(&s(7), &bound_let, &branches);
    let branches = case(&s(6), &second(&both(7)), &branches);
    let branches = case(&s(5), &first(&both(6)), &branches);
    let inner = let_in(&c(), &branches);
    let inner = case(&right(B_OR_B, &v(3)), &d(4), &inner);
    let inner = case(&left(B_OR_B, &v(2)), &inner, &d(3));
    let inner = apply(&function(B_TO_B, &inner), &v(1));
    sample(&[B, B_OR_B], let_in(&v(0), &inner))
}

/// `first ((first (… v …), v))`, nested this deep: as many uses of let, let of let, let value and first
/// as that takes.
pub fn nested_firsts(levels: usize) -> Sample {
    let term = (0..levels).fold(variable(0), |operand, _| {
        first(&pair(B_AND_B, &operand, &variable(0)))
    });
    sample(&[B], term)
}
