//! The first redex at or after a place: a scan over the words.

use crate::nodes::{is_value_kind, kind, operand_count, value_end};
use crate::usage::Usage;
use oracle::rules::{Phase, Rule};
use oracle::search::Redex;
use oracle::words::*;

/// The first redex of the phase, if none stands before `from`.
pub fn first_redex(
    phase: Phase,
    term: &[u64],
    from: usize,
    calls: &[u64],
    usage: &mut Usage<'_>,
) -> Option<Redex> {
    let mut places = from..term.len();
    match phase {
        Phase::Insertion => places
            .find(|&index| first_computation(term, index, calls).is_some())
            .map(|index| Redex {
                rule: Rule::LetInsertion,
                index,
            }),
        Phase::Reduction => places.find_map(|index| {
            let rule = reduction_at(term, index)?;
            Some(Redex { rule, index })
        }),
        Phase::Removal => usage.first_let_to_drop(term).map(|index| Redex {
            rule: Rule::Drop,
            index,
        }),
    }
}

/// Where the node's first operand that is a computation starts.
pub fn first_computation(term: &[u64], place: usize, calls: &[u64]) -> Option<usize> {
    let mut operand = place + 1;
    for _ in 0..operand_count(term[place], calls) {
        match value_end(term, operand, calls) {
            Some(end) => operand = end,
            None => return Some(operand),
        }
    }
    None
}

/// The rule of the second phase that fits here. Every operand position holds a value, so the
/// kinds of three words decide.
fn reduction_at(term: &[u64], place: usize) -> Option<Rule> {
    match kind(term[place]) {
        APPLICATION if kind(term[place + 1]) == FUNCTION => Some(Rule::Apply),
        LET => match kind(term[place + 1]) {
            LET if !is_value_kind(term[place + 2]) => Some(Rule::LetOfLet),
            CASE if kind(term[place + 2]) == VARIABLE => Some(Rule::LetOfCase),
            _ if is_value_kind(term[place + 1]) => Some(Rule::LetValue),
            _ => None,
        },
        FIRST if kind(term[place + 1]) == PAIR => Some(Rule::First),
        SECOND if kind(term[place + 1]) == PAIR => Some(Rule::Second),
        CASE => match kind(term[place + 1]) {
            LEFT => Some(Rule::LeftCase),
            RIGHT => Some(Rule::RightCase),
            _ => None,
        },
        _ => None,
    }
}
