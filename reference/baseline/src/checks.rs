//! The checks 1 to 9 in their order, on words.

use crate::depths::{part_count, Depths};
use crate::nodes::{kind, number};
use crate::typing::type_of;
use oracle::checks::{Refusal, MOST_CALLS, MOST_INPUTS, MOST_TYPES};
use oracle::words::*;

/// The type of a term of at most `longest` words, or the refusal of the first place with a fault.
pub fn examine(
    types: &[u64],
    calls: &[u64],
    inputs: &[u64],
    term: &[u64],
    longest: usize,
) -> Result<u32, Refusal> {
    let lengths_fit = types.len() <= MOST_TYPES
        && calls.len() <= MOST_CALLS
        && inputs.len() <= MOST_INPUTS
        && (1..=longest).contains(&term.len());
    require(lengths_fit, Refusal::Lengths)?;
    let mut numbered_types = types.iter().enumerate();
    let types_fit = numbered_types.all(|(index, &word)| type_fits(word, index));
    require(types_fit, Refusal::TypeTable)?;
    require(all_differ(types), Refusal::DuplicateType)?;
    let calls_fit = calls.iter().all(|&word| call_fits(word, types.len()));
    require(calls_fit, Refusal::CallTable)?;
    let inputs_fit = inputs.iter().all(|&word| word < types.len() as u64);
    require(inputs_fit, Refusal::InputTable)?;
    let mut words = term.iter();
    let words_fit = words.all(|&word| term_word_fits(word, types.len(), calls.len()));
    require(words_fit, Refusal::TermWords)?;
    require(is_one_term(term, calls), Refusal::TermShape)?;
    let variables_fit = variables_fit(term, calls, inputs.len());
    require(variables_fit, Refusal::Variables)?;
    type_of(types, calls, inputs, term).ok_or(Refusal::Typing)
}

fn require(condition: bool, refusal: Refusal) -> Result<(), Refusal> {
    condition.then_some(()).ok_or(refusal)
}

/// A known kind, an unused field zero, the parts earlier.
fn type_fits(word: u64, index: usize) -> bool {
    let (kind, left, right) = unpack_type(word);
    match kind {
        BASE => right == 0,
        FUNCTION_TYPE | PRODUCT | SUM => left < index as u64 && right < index as u64,
        UNIT_TYPE => left == 0 && right == 0,
        _ => false,
    }
}

fn all_differ(words: &[u64]) -> bool {
    let mut sorted = words.to_vec();
    sorted.sort_unstable();
    sorted.windows(2).all(|pair| pair[0] != pair[1])
}

/// A known count, known types, the fields past the arguments zero.
fn call_fits(word: u64, type_count: usize) -> bool {
    let (count, result, fields) = unpack_call(word);
    let Some((arguments, _)) = read_count(count) else {
        return false;
    };
    let (used, unused) = fields.split_at(arguments);
    result < type_count as u64
        && used.iter().all(|&argument| argument < type_count as u64)
        && unused.iter().all(|&field| field == 0)
}

/// A known kind, unused fields zero, a known call and type.
fn term_word_fits(word: u64, type_count: usize, call_count: usize) -> bool {
    let (kind, number, type_number) = unpack_term(word);
    match kind {
        VARIABLE => type_number == 0,
        CALL => number < call_count as u64 && type_number == 0,
        FUNCTION | PAIR | LEFT | RIGHT | UNIT => number == 0 && type_number < type_count as u64,
        APPLICATION | LET | FIRST | SECOND | CASE => number == 0 && type_number == 0,
        _ => false,
    }
}

/// The words do not end early and none are left over.
fn is_one_term(term: &[u64], calls: &[u64]) -> bool {
    let mut open = 1;
    for &word in term {
        if open == 0 {
            return false;
        }
        open = open + part_count(word, calls) - 1;
    }
    open == 0
}

/// Every variable names a binder or an input.
fn variables_fit(term: &[u64], calls: &[u64], inputs: usize) -> bool {
    let mut depths = Depths::new();
    let mut cursor = depths.begin(0);
    for &word in term {
        let depth = cursor.pass(word, calls);
        if kind(word) == VARIABLE && number(word) >= depth as usize + inputs {
            return false;
        }
    }
    true
}
