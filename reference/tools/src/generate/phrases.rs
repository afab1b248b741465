//! Terms written as words, part by part: for terms too deep to build as trees.

use oracle::words::*;

/// A term's words in prefix order.
pub type Phrase = Vec<u64>;

fn node(word: u64, parts: &[&Phrase]) -> Phrase {
    let mut words = vec![word];
    for part in parts {
        words.extend_from_slice(part);
    }
    words
}

pub fn variable(number: u64) -> Phrase {
    vec![pack_term(VARIABLE, number, 0)]
}

pub fn call(number: u64, arguments: &[&Phrase]) -> Phrase {
    node(pack_term(CALL, number, 0), arguments)
}

pub fn function(type_number: u64, body: &Phrase) -> Phrase {
    node(pack_term(FUNCTION, 0, type_number), &[body])
}

pub fn apply(head: &Phrase, operand: &Phrase) -> Phrase {
    node(pack_term(APPLICATION, 0, 0), &[head, operand])
}

pub fn let_in(bound: &Phrase, body: &Phrase) -> Phrase {
    node(pack_term(LET, 0, 0), &[bound, body])
}

pub fn pair(type_number: u64, left: &Phrase, right: &Phrase) -> Phrase {
    node(pack_term(PAIR, 0, type_number), &[left, right])
}

pub fn first(operand: &Phrase) -> Phrase {
    node(pack_term(FIRST, 0, 0), &[operand])
}

pub fn second(operand: &Phrase) -> Phrase {
    node(pack_term(SECOND, 0, 0), &[operand])
}

pub fn left(type_number: u64, operand: &Phrase) -> Phrase {
    node(pack_term(LEFT, 0, type_number), &[operand])
}

pub fn right(type_number: u64, operand: &Phrase) -> Phrase {
    node(pack_term(RIGHT, 0, type_number), &[operand])
}

pub fn case(subject: &Phrase, left: &Phrase, right: &Phrase) -> Phrase {
    node(pack_term(CASE, 0, 0), &[subject, left, right])
}

pub fn unit(type_number: u64) -> Phrase {
    node(pack_term(UNIT, 0, type_number), &[])
}
