//! The call `free_inputs`: marks at the borders of their words, under binders and in code that no
//! run reaches, and each refusal.

use flatten::{free_inputs, FreeInputs, Refused, Tables};

const TABLES: Tables = Tables {
    types: &[0, 1 << 60],
    calls: &[0, 1 << 60],
    inputs: &[0; 256],
};

const HIGHEST: u64 = 1 << 63;
const C: u64 = 1 << 60;
const LET: u64 = 4 << 60;
const FUNCTION: u64 = 2 << 60 | 1;

fn variable(number: u64) -> u64 {
    number << 30
}

#[test]
fn each_input_has_its_mark() {
    for input in 0..256 {
        let mut marks = [0; 4];
        marks[input as usize / 64] = HIGHEST >> (input % 64);
        let expected = Ok(FreeInputs { marks, count: 1 });
        assert_eq!(free_inputs(TABLES, &[variable(input)]), expected);
        let under_a_let = [LET, C, variable(input + 1)];
        assert_eq!(free_inputs(TABLES, &under_a_let), expected);
    }
}

#[test]
fn an_input_is_marked_where_no_run_reads_it() {
    // let (λ. v2), v1: the function, which reads input 1, is never applied.
    let term = [LET, FUNCTION, variable(2), variable(1)];
    let free = free_inputs(TABLES, &term).expect("a well-typed term");
    assert_eq!(free.marks, [HIGHEST | HIGHEST >> 1, 0, 0, 0]);
    assert_eq!(free.count, 2);
    assert!(free.contains(0) && free.contains(1));
    assert!((2..1000).all(|input| !free.contains(input)));
}

#[test]
fn a_binder_is_no_input() {
    let term = [LET, C, variable(0)];
    let none = FreeInputs {
        marks: [0; 4],
        count: 0,
    };
    assert_eq!(free_inputs(TABLES, &term), Ok(none));
}

#[test]
fn terms_have_up_to_8192_words() {
    // d (d (… v255))
    let mut term = vec![1 << 60 | 1 << 30; 8191];
    term.push(variable(255));
    let free = free_inputs(TABLES, &term).expect("8,192 words");
    assert!(free.contains(255) && free.count == 1);
    term.insert(0, term[0]);
    let refused = free_inputs(TABLES, &term).expect_err("8,193 words");
    assert_eq!(refused.number, 1);
}

#[test]
fn refused_by_each_check() {
    let types = |types| Tables { types, ..TABLES };
    let calls = |calls| Tables { calls, ..TABLES };
    let inputs = |inputs| Tables { inputs, ..TABLES };
    for (number, tables, term) in [
        (1, TABLES, &[][..]),
        (1, inputs(&[0; 257]), &[C]),
        (2, types(&[1 << 60]), &[C]),
        (3, types(&[0, 0]), &[C]),
        (4, calls(&[4 << 60]), &[C]),
        (5, inputs(&[2]), &[C]),
        (6, TABLES, &[12 << 60]),
        (7, TABLES, &[LET, C]),
        (8, TABLES, &[variable(256)]),
        (9, TABLES, &[6 << 60, C]),
    ] {
        let counts = [0; 10];
        let expected = Err(Refused { number, counts });
        assert_eq!(free_inputs(tables, term), expected);
    }
}
