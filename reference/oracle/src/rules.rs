//! The ten rules: where each fits, what it makes of a node, and by how much that is longer.

use crate::dropping::may_be_dropped;
use crate::substitution::{lower, occurrences, raise, substitute};
use crate::tables::Tables;
use crate::term::{Role, Term};
use std::mem::replace;

/// The rules in the order of their counts.
#[derive(Clone, Copy, Debug, PartialEq, Eq)]
pub enum Rule {
    LetInsertion,
    LetOfLet,
    LetOfCase,
    Apply,
    First,
    Second,
    LeftCase,
    RightCase,
    LetValue,
    Drop,
}

/// All of them.
pub const RULES: [Rule; 10] = [
    Rule::LetInsertion,
    Rule::LetOfLet,
    Rule::LetOfCase,
    Rule::Apply,
    Rule::First,
    Rule::Second,
    Rule::LeftCase,
    Rule::RightCase,
    Rule::LetValue,
    Rule::Drop,
];

/// The names of the rules in the same order.
pub const RULE_NAMES: [&str; 10] = [
    "let",
    "let of let",
    "let of case",
    "apply",
    "first",
    "second",
    "left case",
    "right case",
    "let value",
    "drop",
];

/// The three phases in order.
#[derive(Clone, Copy, Debug, PartialEq, Eq)]
pub enum Phase {
    Insertion,
    Reduction,
    Removal,
}

pub const PHASES: [Phase; 3] = [Phase::Insertion, Phase::Reduction, Phase::Removal];

/// The rule of this phase that fits at this very node, given the tables; no two do.
pub fn rule_at(tables: &Tables, term: &Term, phase: Phase) -> Option<Rule> {
    match phase {
        Phase::Insertion => inserts(term).then_some(Rule::LetInsertion),
        Phase::Reduction => reduction_at(term),
        Phase::Removal => match term {
            Term::Let(bound, body) => {
                let fits = may_be_dropped(tables, bound) && occurrences(body, 0) == 0;
                fits.then_some(Rule::Drop)
            }
            _ => None,
        },
    }
}

/// Some operand position of the node holds a computation.
fn inserts(term: &Term) -> bool {
    term.parts()
        .any(|(role, part)| role == Role::Operand && !part.is_value())
}

fn reduction_at(term: &Term) -> Option<Rule> {
    match term {
        Term::Let(bound, _) => match &**bound {
            Term::Let(inner, _) if !inner.is_value() => Some(Rule::LetOfLet),
            Term::Case(subject, ..) if matches!(**subject, Term::Variable(_)) => {
                Some(Rule::LetOfCase)
            }
            value if value.is_value() => Some(Rule::LetValue),
            _ => None,
        },
        Term::Application(head, operand) => {
            let fits = matches!(**head, Term::Function(..)) && operand.is_value();
            fits.then_some(Rule::Apply)
        }
        Term::First(operand) => is_pair_value(operand).then_some(Rule::First),
        Term::Second(operand) => is_pair_value(operand).then_some(Rule::Second),
        Term::Case(subject, ..) if subject.is_value() => match **subject {
            Term::Left(..) => Some(Rule::LeftCase),
            Term::Right(..) => Some(Rule::RightCase),
            _ => None,
        },
        _ => None,
    }
}

fn is_pair_value(term: &Term) -> bool {
    matches!(term, Term::Pair(..)) && term.is_value()
}

/// The node after the rule, which fits there.
pub fn rewrite(rule: Rule, node: Term) -> Term {
    match (rule, node) {
        (Rule::LetInsertion, node) => insert_let(node),
        (Rule::LetOfLet, Term::Let(bound, body)) => match *bound {
            Term::Let(inner, inner_body) => let_of_let(inner, inner_body, body),
            other => does_not_fit(rule, &other),
        },
        (Rule::LetOfCase, Term::Let(bound, body)) => match *bound {
            Term::Case(subject, left, right) => let_of_case(subject, left, right, body),
            other => does_not_fit(rule, &other),
        },
        (Rule::Apply, Term::Application(head, operand)) => match *head {
            Term::Function(_, body) => substitute(*body, &operand),
            other => does_not_fit(rule, &other),
        },
        (Rule::First, Term::First(operand)) => match *operand {
            Term::Pair(_, left, _) => *left,
            other => does_not_fit(rule, &other),
        },
        (Rule::Second, Term::Second(operand)) => match *operand {
            Term::Pair(_, _, right) => *right,
            other => does_not_fit(rule, &other),
        },
        (Rule::LeftCase, Term::Case(subject, left, _)) => match *subject {
            Term::Left(_, value) => substitute(*left, &value),
            other => does_not_fit(rule, &other),
        },
        (Rule::RightCase, Term::Case(subject, _, right)) => match *subject {
            Term::Right(_, value) => substitute(*right, &value),
            other => does_not_fit(rule, &other),
        },
        (Rule::LetValue, Term::Let(bound, body)) => substitute(*body, &bound),
        (Rule::Drop, Term::Let(_, mut body)) => {
            lower(&mut body);
            *body
        }
        (_, node) => does_not_fit(rule, &node),
    }
}

fn does_not_fit(rule: Rule, part: &Term) -> ! {
    panic!("{rule:?} was asked for where it does not fit: {part:?}")
}

/// Binds the first computation in an operand position over the node with the new variable there.
fn insert_let(mut node: Term) -> Term {
    let mut bound = None;
    for (role, part) in node.parts_mut() {
        if bound.is_none() && role == Role::Operand && !part.is_value() {
            bound = Some(replace(part, Term::Variable(0)));
        } else {
            raise(part, 1, role.binders());
        }
    }
    match bound {
        Some(bound) => Term::Let(Box::new(bound), Box::new(node)),
        None => does_not_fit(Rule::LetInsertion, &node),
    }
}

/// `let (let inner, inner_body), body` with the inner let moved outside.
fn let_of_let(inner: Box<Term>, inner_body: Box<Term>, mut body: Box<Term>) -> Term {
    raise(&mut body, 1, 1);
    Term::Let(inner, Box::new(Term::Let(inner_body, body)))
}

/// `let (case subject, left, right), body` with the case moved outside.
fn let_of_case(subject: Box<Term>, left: Box<Term>, right: Box<Term>, body: Box<Term>) -> Term {
    let mut body = body;
    raise(&mut body, 1, 1);
    let left = Term::Let(left, body.clone());
    let right = Term::Let(right, body);
    Term::Case(subject, Box::new(left), Box::new(right))
}

/// By how many words the rule, which fits there, makes the term longer; found without rewriting.
pub fn growth(rule: Rule, node: &Term) -> isize {
    match (rule, node) {
        (Rule::LetInsertion, _) => 2,
        (Rule::LetOfLet, _) => 0,
        (Rule::LetOfCase, Term::Let(_, body)) => 1 + length(body),
        (Rule::Apply, Term::Application(head, operand)) => match &**head {
            Term::Function(_, body) => substitution_growth(body, operand) - 2,
            other => does_not_fit(rule, other),
        },
        (Rule::First, Term::First(operand)) => match &**operand {
            Term::Pair(_, _, right) => -2 - length(right),
            other => does_not_fit(rule, other),
        },
        (Rule::Second, Term::Second(operand)) => match &**operand {
            Term::Pair(_, left, _) => -2 - length(left),
            other => does_not_fit(rule, other),
        },
        (Rule::LeftCase, Term::Case(subject, branch, other))
        | (Rule::RightCase, Term::Case(subject, other, branch)) => match &**subject {
            Term::Left(_, value) | Term::Right(_, value) => {
                substitution_growth(branch, value) - 2 - length(other)
            }
            other => does_not_fit(rule, other),
        },
        (Rule::LetValue, Term::Let(bound, body)) => substitution_growth(body, bound) - 1,
        (Rule::Drop, Term::Let(bound, _)) => -1 - length(bound),
        (_, node) => does_not_fit(rule, node),
    }
}

/// The value goes from its place and comes in for each use of the body's variable.
fn substitution_growth(body: &Term, value: &Term) -> isize {
    let uses = occurrences(body, 0) as isize;
    uses * (length(value) - 1) - length(value)
}

fn length(term: &Term) -> isize {
    term.size() as isize
}
