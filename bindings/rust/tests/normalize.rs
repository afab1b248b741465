//! The call `normalize`: case A of paper 01 with several budgets and buffers, and each refusal.

use flatten::{normalize, Buffers, Refused, Settings, Tables};

const TABLES: Tables = Tables {
    types: &[0, 1 << 60],
    calls: &[0, 1 << 60],
    inputs: &[],
};

/// The function that calls d on its argument, applied to c.
const TERM: [u64; 5] = [3 << 60, 2 << 60 | 1, 1 << 60 | 1 << 30, 0, 1 << 60];

/// let c, d v0
const NORMAL_FORM: [u64; 4] = [4 << 60, 1 << 60, 1 << 60 | 1 << 30, 0];

/// The word that the buffers hold before each call.
const BEFORE: u64 = 0xdead;

/// The answer, the words of the normal form copied; and the output after the call. The scratch
/// buffers have to be zero.
struct Outcome {
    answer: Result<(u64, Vec<u64>, [u32; 10]), Refused>,
    output: Vec<u64>,
}

fn outcome(tables: Tables, term: &[u64], budget: u32, lengths: [usize; 3]) -> Outcome {
    let [mut output, mut first, mut second] = lengths.map(|length| vec![BEFORE; length]);
    let buffers = Buffers {
        output: &mut output,
        first: &mut first,
        second: &mut second,
    };
    let answer = normalize(tables, term, Settings::no_ceilings(budget), buffers)
        .map(|normal| (normal.ty, normal.words.to_vec(), normal.counts));
    assert_eq!(first, vec![0; lengths[1]]);
    assert_eq!(second, vec![0; lengths[2]]);
    Outcome { answer, output }
}

/// Refused with this number after these steps, and the output as it was.
fn assert_refused(outcome: Outcome, number: u32, counts: [u32; 10]) {
    assert_eq!(outcome.answer, Err(Refused { number, counts }));
    assert!(outcome.output.iter().all(|&word| word == BEFORE));
}

#[test]
fn accepted() {
    let outcome = outcome(TABLES, &TERM, 1000, [9, 8, 10]);
    let counts = [1, 0, 0, 1, 0, 0, 0, 0, 0, 0];
    assert_eq!(outcome.answer, Ok((0, NORMAL_FORM.to_vec(), counts)));
    assert_eq!(outcome.output[..4], NORMAL_FORM);
    assert_eq!(outcome.output[4..], [BEFORE; 5]);
}

#[test]
fn the_type_is_answered() {
    let tables = Tables {
        inputs: &[0, 1],
        ..TABLES
    };
    let outcome = outcome(tables, &[1 << 30], 0, [1; 3]);
    assert_eq!(outcome.answer, Ok((1, vec![1 << 30], [0; 10])));
}

#[test]
fn the_least_budget_and_capacity_are_enough() {
    for lengths in [[7, 7, 7], [7, 9, 8], [9, 7, 8], [9, 8, 7]] {
        let outcome = outcome(TABLES, &TERM, 2, lengths);
        assert_eq!(outcome.output[..4], NORMAL_FORM);
    }
}

#[test]
fn refused_by_the_budget() {
    let outcome = outcome(TABLES, &TERM, 1, [9, 8, 10]);
    assert_refused(outcome, 10, [1, 0, 0, 0, 0, 0, 0, 0, 0, 0]);
}

#[test]
fn refused_by_the_capacity_of_the_shortest_buffer() {
    for lengths in [[6, 9, 9], [9, 6, 9], [9, 9, 6]] {
        assert_refused(outcome(TABLES, &TERM, 1000, lengths), 11, [0; 10]);
    }
}

#[test]
fn the_budget_is_looked_at_before_the_capacity() {
    assert_refused(outcome(TABLES, &TERM, 0, [6; 3]), 10, [0; 10]);
}

#[test]
fn refused_by_each_check() {
    let types = |types| Tables { types, ..TABLES };
    let calls = |calls| Tables { calls, ..TABLES };
    let inputs = |inputs| Tables { inputs, ..TABLES };
    for (number, tables, term) in [
        (1, TABLES, &[][..]),
        (2, types(&[1 << 60]), &TERM),
        (3, types(&[0, 0]), &TERM),
        (4, calls(&[4 << 60]), &TERM),
        (5, inputs(&[2]), &TERM),
        (6, TABLES, &[12 << 60]),
        (7, TABLES, &TERM[..4]),
        (8, TABLES, &[0]),
        (9, TABLES, &[6 << 60, 1 << 60]),
    ] {
        assert_refused(outcome(tables, term, 1000, [16; 3]), number, [0; 10]);
    }
}

#[test]
fn a_refusal_says_its_reason() {
    let refused = outcome(TABLES, &TERM, 1, [9; 3]).answer.unwrap_err();
    let text = "refused with 10: a rule fits and the budget is used up";
    assert_eq!(refused.to_string(), text);
}
