//! Calls that act through `normalize`, `free_inputs` and `respond`: what stays, what goes, and each
//! refusal.

mod small_buffers;

use flatten::{free_inputs, respond, Tables};

const STAMP_EXAMPLE: &[u8] = include_bytes!("../../../examples/stamp.bundle");
const STAMP_LISTING: &[u8] = include_bytes!("../../../examples/stamp.listing");
const TITHE: &[u8] = include_bytes!("../../../examples/tithe.bundle");
const TITHE_LISTING: &[u8] = include_bytes!("../../../examples/tithe.listing");

/// A base type and the functions over it; the call stamp, which acts and takes one argument, and
/// measure, which takes one and does not act; a function and a base value for inputs.
const TABLES: Tables = Tables {
    types: &[0, 1 << 60],
    calls: &[9 << 60, 1 << 60],
    inputs: &[1, 0],
};

const LET: u64 = 4 << 60;
const STAMP: u64 = 1 << 60;
const MEASURE: u64 = 1 << 60 | 1 << 30;
const APPLY: u64 = 3 << 60;

fn variable(number: u64) -> u64 {
    number << 30
}

/// The words of the normal form and the number of drops, or the number of the refusal.
fn normal_form(tables: Tables, term: &[u64]) -> Result<(Vec<u64>, u32), u32> {
    let (words, counts) = small_buffers::normal_form(tables, term)?;
    Ok((words, counts[9]))
}

#[test]
fn an_unused_acting_call_stays() {
    let stamped = [LET, STAMP, variable(1), variable(2)];
    assert_eq!(normal_form(TABLES, &stamped), Ok((stamped.to_vec(), 0)));
    let measured = [LET, MEASURE, variable(1), variable(2)];
    assert_eq!(normal_form(TABLES, &measured), Ok((vec![variable(1)], 1)));
}

#[test]
fn the_table_decides_about_applications() {
    let applied = [LET, APPLY, variable(0), variable(1), variable(2)];
    assert_eq!(normal_form(TABLES, &applied), Ok((applied.to_vec(), 0)));
    let plain = Tables {
        calls: &[1 << 60],
        ..TABLES
    };
    assert_eq!(normal_form(plain, &applied), Ok((vec![variable(1)], 1)));
}

#[test]
fn an_acting_call_reads_its_argument() {
    let free = free_inputs(TABLES, &[STAMP, variable(1)]).expect("the term is accepted");
    assert!(free.contains(1) && free.count == 1);
}

#[test]
fn counts() {
    for count in 0..16 {
        let calls = &[count << 60];
        let tables = Tables { calls, ..TABLES };
        let refusal = normal_form(tables, &[STAMP, variable(1)]).err();
        let expected = match count {
            1 | 9 => None,
            0..=3 | 8..=11 => Some(7),
            _ => Some(4),
        };
        assert_eq!(refusal, expected, "count {count}");
    }
}

#[test]
fn refusals() {
    let calls = |calls| Tables { calls, ..TABLES };
    for (number, tables, term) in [
        (4, calls(&[9 << 60 | 1 << 15]), &[STAMP, variable(1)][..]),
        (4, calls(&[8 << 60 | 1 << 30]), &[STAMP]),
        (4, calls(&[9 << 60 | 2 << 30]), &[STAMP, variable(1)]),
        (4, calls(&[9 << 60 | 2 << 45]), &[STAMP, variable(1)]),
        (7, TABLES, &[STAMP]),
        (7, TABLES, &[STAMP, variable(1), variable(1)]),
        (9, TABLES, &[STAMP, variable(0)]),
    ] {
        assert_eq!(normal_form(tables, term), Err(number), "{term:x?}");
    }
}

#[test]
fn the_examples_are_listed_as_in_their_files() {
    assert_eq!(respond(STAMP_EXAMPLE), STAMP_LISTING);
    assert_eq!(respond(TITHE), TITHE_LISTING);
}
