//! Refusals of the unit type and its value: their numbers and order, bit by bit and on damaged
//! samples with units.

mod refused;

use oracle::words::*;
use refused::*;
use tools::generate::each::unit_sample;
use tools::generate::unit_damage::{broken_unit_samples, UNIT_DAMAGES};
use tools::generate::unit_shapes::unit_shapes_of;
use tools::generate::Sample;

const BASE_WORD: u64 = 0;
const UNIT_WORD: u64 = 4 << 60;
const UNIT_NODE: u64 = 11 << 60;

fn refusal_of(types: &[u64], term: &[u64]) -> u32 {
    refusal(&Sample {
        types: types.to_vec(),
        calls: vec![],
        inputs: vec![],
        term: term.to_vec(),
    })
}

#[test]
fn the_words_are_those_of_the_paper() {
    assert_eq!(pack_type(UNIT_TYPE, 0, 0), UNIT_WORD);
    assert_eq!(pack_term(UNIT, 0, 1), UNIT_NODE | 1);
    assert_eq!(refusal_of(&[UNIT_WORD], &[UNIT_NODE]), 0);
    assert_eq!(refusal_of(&[BASE_WORD, UNIT_WORD], &[UNIT_NODE | 1]), 0);
}

#[test]
fn every_field_of_the_unit_type_is_zero() {
    for bit in 0..60 {
        let word = UNIT_WORD | 1 << bit;
        assert_eq!(refusal_of(&[word], &[UNIT_NODE]), 2);
        assert_eq!(refusal_of(&[BASE_WORD, word], &[UNIT_NODE]), 2);
        // 2 comes before 3, also for the same word twice.
        assert_eq!(refusal_of(&[word, word], &[UNIT_NODE]), 2);
        assert_eq!(refusal_of(&[UNIT_WORD, UNIT_WORD, word], &[UNIT_NODE]), 2);
    }
    for kind in 5..16 {
        assert_eq!(refusal_of(&[UNIT_WORD, kind << 60], &[UNIT_NODE]), 2);
        let twice = [UNIT_WORD, UNIT_WORD, kind << 60];
        assert_eq!(refusal_of(&twice, &[UNIT_NODE]), 2);
    }
    assert_eq!(refusal_of(&[UNIT_WORD, UNIT_WORD], &[UNIT_NODE]), 3);
    // 3 comes before a fault in the term.
    assert_eq!(refusal_of(&[UNIT_WORD, UNIT_WORD], &[12 << 60]), 3);
}

#[test]
fn every_field_of_a_unit_is_checked() {
    let types = [UNIT_WORD, BASE_WORD, 1 << 60, 2 << 60, 3 << 60];
    for bit in 30..60 {
        let numbered = UNIT_NODE | 1 << bit;
        assert_eq!(refusal_of(&types, &[numbered]), 6);
        // 6 comes before 7 and 9.
        assert_eq!(refusal_of(&types, &[numbered, UNIT_NODE]), 6);
        assert_eq!(refusal_of(&types, &[numbered | 1]), 6);
    }
    for type_number in 0..(1 << 10) {
        let expected = match type_number {
            0 => 0,
            1..5 => 9,
            _ => 6,
        };
        assert_eq!(refusal_of(&types, &[UNIT_NODE | type_number]), expected);
    }
    for bit in 3..30 {
        assert_eq!(refusal_of(&types, &[UNIT_NODE | 1 << bit]), 6);
    }
    for kind in 12..16 {
        assert_eq!(refusal_of(&types, &[kind << 60]), 6);
        assert_eq!(refusal_of(&types, &[UNIT_NODE, kind << 60]), 6);
    }
}

#[test]
fn a_unit_has_no_parts() {
    let types = [UNIT_WORD, BASE_WORD];
    let (let_in, variable, ill_typed) = (4 << 60, 0, UNIT_NODE | 1);
    assert_eq!(refusal_of(&types, &[UNIT_NODE, UNIT_NODE]), 7);
    assert_eq!(refusal_of(&types, &[UNIT_NODE, variable]), 7);
    assert_eq!(refusal_of(&types, &[let_in, UNIT_NODE]), 7);
    assert_eq!(refusal_of(&types, &[let_in, UNIT_NODE, variable]), 0);
    // 7 before 8 and 9, and 8 before 9; a unit binds nothing.
    assert_eq!(refusal_of(&types, &[ill_typed, UNIT_NODE]), 7);
    assert_eq!(refusal_of(&types, &[let_in, ill_typed, 1 << 30]), 8);
    assert_eq!(refusal_of(&types, &[let_in, ill_typed, variable]), 9);
}

#[test]
fn ill_typed_units() {
    check_ill_typed(broken_unit_samples());
}

#[test]
fn damages_of_samples_with_units() {
    check_damages(unit_sample, [92, 93], UNIT_DAMAGES);
}

#[test]
fn flipped_bits() {
    check_flipped_bits(unit_sample, 94);
}

#[test]
fn lengths_at_their_limits() {
    for shape in unit_shapes_of(8192) {
        let mut sample = shape.sample;
        assert!(sample.term.len() > 8188, "{}", shape.name);
        assert_eq!(refusal(&sample), 0, "{}", shape.name);
        while sample.term.len() < 8192 {
            sample.term.splice(0..0, [4 << 60, UNIT_NODE | 1]);
        }
        let is_long = sample.term.len() > 8192;
        assert_eq!(refusal(&sample), u32::from(is_long), "{}", shape.name);
        sample.term.splice(0..0, [4 << 60, UNIT_NODE | 1]);
        assert_eq!(refusal(&sample), 1, "{}", shape.name);
    }
}
