//! The checks 1 to 9 in their order: each place over its whole table before the next.

use crate::coding::decode;
use crate::dialect::Dialect;
use crate::tables::{decode_calls, decode_inputs, decode_types, Tables};
use crate::term::Term;
use crate::typing::node_types;
use crate::words::*;
use std::collections::HashSet;

/// The refusal numbers.
#[derive(Clone, Copy, Debug, PartialEq, Eq)]
pub enum Refusal {
    Lengths = 1,
    TypeTable = 2,
    DuplicateType = 3,
    CallTable = 4,
    InputTable = 5,
    TermWords = 6,
    TermShape = 7,
    Variables = 8,
    Typing = 9,
    Budget = 10,
    Capacity = 11,
    Bundle = 12,
    Ceiling = 13,
}

impl Refusal {
    pub fn number(self) -> u32 {
        self as u32
    }
}

/// The longest term that is normalized, and the longest that is only examined.
pub const LONGEST_TO_NORMALIZE: usize = 4096;
pub const LONGEST_TO_EXAMINE: usize = 8192;

/// The most words of the other tables.
pub const MOST_TYPES: usize = 1024;
pub const MOST_CALLS: usize = 1024;
pub const MOST_INPUTS: usize = 256;

/// What passed all checks: the decoded tables and term, and the term's type.
#[derive(Clone, Debug)]
pub struct Checked {
    pub tables: Tables,
    pub term: Term,
    pub type_number: u32,
}

/// Runs all checks in the current dialect; the first place with a fault gives the refusal.
pub fn examine(
    types: &[u64],
    calls: &[u64],
    inputs: &[u64],
    term: &[u64],
    longest: usize,
) -> Result<Checked, Refusal> {
    examine_in(Dialect::CURRENT, types, calls, inputs, term, longest)
}

/// The same in any dialect.
pub fn examine_in(
    dialect: Dialect,
    types: &[u64],
    calls: &[u64],
    inputs: &[u64],
    term: &[u64],
    longest: usize,
) -> Result<Checked, Refusal> {
    let lengths_fit = types.len() <= MOST_TYPES
        && calls.len() <= MOST_CALLS
        && inputs.len() <= MOST_INPUTS
        && (1..=longest).contains(&term.len());
    require(lengths_fit, Refusal::Lengths)?;

    let mut type_kinds = types.iter().map(|&word| unpack_type(word).0);
    let kinds_known = type_kinds.all(|kind| dialect.has_type_kind(kind));
    require(kinds_known, Refusal::TypeTable)?;
    let decoded_types = decode_types(types).ok_or(Refusal::TypeTable)?;
    let distinct: HashSet<&u64> = types.iter().collect();
    require(distinct.len() == types.len(), Refusal::DuplicateType)?;

    let mut counts = calls.iter().map(|&word| unpack_call(word).0);
    let counts_known = counts.all(|count| dialect.has_count(count));
    require(counts_known, Refusal::CallTable)?;
    let tables = Tables {
        types: decoded_types,
        signatures: decode_calls(calls, types.len()).ok_or(Refusal::CallTable)?,
        inputs: decode_inputs(inputs, types.len()).ok_or(Refusal::InputTable)?,
    };

    let mut term_kinds = term.iter().map(|&word| unpack_term(word).0);
    let kinds_known = term_kinds.all(|kind| dialect.has_term_kind(kind));
    require(kinds_known, Refusal::TermWords)?;
    let words_known = term
        .iter()
        .all(|&word| term_word_is_known(word, types.len(), calls.len()));
    require(words_known, Refusal::TermWords)?;

    let term = decode(term, &tables.signatures).ok_or(Refusal::TermShape)?;
    let closed = variables_are_known(&term, tables.inputs.len() as u32);
    require(closed, Refusal::Variables)?;

    let type_number = node_types(&tables, &term).ok_or(Refusal::Typing)?[0];
    Ok(Checked {
        tables,
        term,
        type_number,
    })
}

fn require(condition: bool, refusal: Refusal) -> Result<(), Refusal> {
    condition.then_some(()).ok_or(refusal)
}

/// A known kind, unused fields zero, a call and a type which are in their tables.
fn term_word_is_known(word: u64, type_count: usize, call_count: usize) -> bool {
    let (kind, number, type_number) = unpack_term(word);
    match kind {
        VARIABLE => type_number == 0,
        CALL => number < call_count as u64 && type_number == 0,
        FUNCTION | PAIR | LEFT | RIGHT | UNIT => number == 0 && type_number < type_count as u64,
        APPLICATION | LET | FIRST | SECOND | CASE => number == 0 && type_number == 0,
        _ => false,
    }
}

/// Every variable names one of the `in_scope` binders and inputs.
fn variables_are_known(term: &Term, in_scope: u32) -> bool {
    if let Term::Variable(number) = term {
        return *number < in_scope;
    }
    term.parts()
        .all(|(role, part)| variables_are_known(part, in_scope + role.binders()))
}
