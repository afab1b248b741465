//! What a step will rewrite: where the redex's parts lie, and how long the next term is.

use crate::depths::Depths;
use crate::nodes::part_end;
use crate::renaming::count_uses;
use crate::search::first_computation;
use oracle::rules::Rule;
use oracle::search::Redex;
use std::ops::Range;

/// How the redex's stretch of words is rewritten, and where the parts lie that it needs.
pub enum Plan {
    /// A let binds the computation over the rest of the node.
    Insert {
        node: Range<usize>,
        computation: Range<usize>,
    },
    /// The inner let moves outside; its body lies between what it binds and the outer body.
    MoveLet {
        bound: Range<usize>,
        outer_body: Range<usize>,
    },
    /// The case moves outside; each branch is bound by a let over the outer body.
    MoveCase {
        left: Range<usize>,
        right: Range<usize>,
        outer_body: Range<usize>,
    },
    /// The body with the value put in takes the place of the redex.
    Substitute {
        redex: Range<usize>,
        body: Range<usize>,
        value: Range<usize>,
    },
    /// The part takes the place of the redex.
    Keep {
        redex: Range<usize>,
        part: Range<usize>,
    },
    /// The body, without its binder, takes the place of the redex.
    Drop {
        redex: Range<usize>,
        body: Range<usize>,
    },
}

/// A plan and the length of the next term.
pub struct Measured {
    pub plan: Plan,
    pub next_length: usize,
}

/// Measures the step at this redex without writing a word.
pub fn measure(term: &[u64], redex: Redex, calls: &[u64], depths: &mut Depths) -> Measured {
    let place = redex.index;
    let part = |start| start..part_end(term, start, calls);
    let mut body_with_uses = |start| {
        let (uses, end) = count_uses(term, start, calls, depths);
        (start..end, uses)
    };
    match redex.rule {
        Rule::LetInsertion => {
            let operand = first_computation(term, place, calls);
            let plan = Plan::Insert {
                node: part(place),
                computation: part(operand.expect("the rule fits there")),
            };
            Measured {
                plan,
                next_length: term.len() + 2,
            }
        }
        Rule::LetOfLet => {
            let bound = part(place + 2);
            let inner_body = part(bound.end);
            let plan = Plan::MoveLet {
                bound,
                outer_body: part(inner_body.end),
            };
            Measured {
                plan,
                next_length: term.len(),
            }
        }
        Rule::LetOfCase => {
            let left = part(place + 3);
            let right = part(left.end);
            let outer_body = part(right.end);
            Measured {
                next_length: term.len() + 1 + outer_body.len(),
                plan: Plan::MoveCase {
                    left,
                    right,
                    outer_body,
                },
            }
        }
        Rule::Apply => {
            let (body, uses) = body_with_uses(place + 2);
            let value = part(body.end);
            substitution(term, place..value.end, body, value, uses)
        }
        Rule::First => {
            let left = part(place + 2);
            let right = part(left.end);
            keep(term, place..right.end, left)
        }
        Rule::Second => {
            let left = part(place + 2);
            let right = part(left.end);
            keep(term, place..right.end, right)
        }
        Rule::LeftCase => {
            let value = part(place + 2);
            let (body, uses) = body_with_uses(value.end);
            let other = part(body.end);
            substitution(term, place..other.end, body, value, uses)
        }
        Rule::RightCase => {
            let value = part(place + 2);
            let other = part(value.end);
            let (body, uses) = body_with_uses(other.end);
            substitution(term, place..body.end, body, value, uses)
        }
        Rule::LetValue => {
            let value = part(place + 1);
            let (body, uses) = body_with_uses(value.end);
            substitution(term, place..body.end, body, value, uses)
        }
        Rule::Drop => {
            let bound = part(place + 1);
            let body = part(bound.end);
            Measured {
                next_length: term.len() - 1 - bound.len(),
                plan: Plan::Drop {
                    redex: place..body.end,
                    body,
                },
            }
        }
    }
}

fn substitution(
    term: &[u64],
    redex: Range<usize>,
    body: Range<usize>,
    value: Range<usize>,
    uses: usize,
) -> Measured {
    let written = body.len() - uses + uses * value.len();
    Measured {
        next_length: term.len() - redex.len() + written,
        plan: Plan::Substitute { redex, body, value },
    }
}

fn keep(term: &[u64], redex: Range<usize>, part: Range<usize>) -> Measured {
    Measured {
        next_length: term.len() - redex.len() + part.len(),
        plan: Plan::Keep { redex, part },
    }
}
