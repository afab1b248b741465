//! Terms as words in prefix order: decoding by the call table's numbers of arguments, and encoding.

use crate::tables::Signature;
use crate::term::Term;
use crate::words::*;
use std::slice::Iter;

/// Reads one whole term of known words; `None` if words end early or are left over.
pub fn decode(words: &[u64], signatures: &[Signature]) -> Option<Term> {
    let arguments = |number: u32| Some(signatures[number as usize].arguments.len());
    let mut remaining = words.iter();
    let term = decode_front(&mut remaining, &arguments)?;
    remaining.next().is_none().then_some(term)
}

/// Reads one term and leaves the words behind it; `None` if words end early or a word of the term has
/// no known number of parts. `arguments` is that of the call with a number.
pub fn decode_front(
    words: &mut Iter<u64>,
    arguments: &impl Fn(u32) -> Option<usize>,
) -> Option<Term> {
    let (kind, number, type_number) = unpack_term(*words.next()?);
    let (number, type_number) = (number as u32, type_number as u32);
    let mut part = || decode_front(words, arguments);
    let term = match kind {
        VARIABLE => Term::Variable(number),
        CALL => {
            let parts: Option<Vec<Term>> = (0..arguments(number)?).map(|_| part()).collect();
            Term::Call(number, parts?)
        }
        FUNCTION => Term::Function(type_number, Box::new(part()?)),
        APPLICATION => Term::Application(Box::new(part()?), Box::new(part()?)),
        LET => Term::Let(Box::new(part()?), Box::new(part()?)),
        PAIR => Term::Pair(type_number, Box::new(part()?), Box::new(part()?)),
        FIRST => Term::First(Box::new(part()?)),
        SECOND => Term::Second(Box::new(part()?)),
        LEFT => Term::Left(type_number, Box::new(part()?)),
        RIGHT => Term::Right(type_number, Box::new(part()?)),
        CASE => Term::Case(Box::new(part()?), Box::new(part()?), Box::new(part()?)),
        UNIT => Term::Unit(type_number),
        _ => return None,
    };
    Some(term)
}

/// The words of a term in prefix order.
pub fn encode(term: &Term) -> Vec<u64> {
    let mut words = Vec::new();
    encode_onto(term, &mut words);
    words
}

fn encode_onto(term: &Term, words: &mut Vec<u64>) {
    words.push(match *term {
        Term::Variable(number) => pack_term(VARIABLE, number.into(), 0),
        Term::Call(number, _) => pack_term(CALL, number.into(), 0),
        Term::Function(type_number, _) => pack_term(FUNCTION, 0, type_number.into()),
        Term::Application(..) => pack_term(APPLICATION, 0, 0),
        Term::Let(..) => pack_term(LET, 0, 0),
        Term::Pair(type_number, ..) => pack_term(PAIR, 0, type_number.into()),
        Term::First(_) => pack_term(FIRST, 0, 0),
        Term::Second(_) => pack_term(SECOND, 0, 0),
        Term::Left(type_number, _) => pack_term(LEFT, 0, type_number.into()),
        Term::Right(type_number, _) => pack_term(RIGHT, 0, type_number.into()),
        Term::Case(..) => pack_term(CASE, 0, 0),
        Term::Unit(type_number) => pack_term(UNIT, 0, type_number.into()),
    });
    for (_, part) in term.parts() {
        encode_onto(part, words);
    }
}
