//! Terms with units through `normalize`, `free_inputs` and `respond`: accepted, and each refusal.

mod small_buffers;

use flatten::{free_inputs, respond, Tables};
use small_buffers::normal_form;

const PLATE: &[u8] = include_bytes!("../../../examples/plate.bundle");
const PLATE_LISTING: &[u8] = include_bytes!("../../../examples/plate.listing");

/// A base type, the unit type, and the functions from unit to base; a call c with no argument.
const TABLES: Tables = Tables {
    types: &[0, 4 << 60, 1 << 60 | 1 << 30],
    calls: &[0],
    inputs: &[0],
};

const UNIT: u64 = 11 << 60 | 1;
const C: u64 = 1 << 60;

#[test]
fn a_unit_is_a_value() {
    assert_eq!(
        normal_form(TABLES, &[UNIT]),
        Ok((vec![UNIT], [0; 10])),
        "a unit by itself"
    );
    assert_eq!(
        normal_form(TABLES, &[4 << 60, UNIT, C]),
        Ok((vec![C], [0, 0, 0, 0, 0, 0, 0, 0, 1, 0])),
        "a let of a unit"
    );
}

#[test]
fn a_helper_that_takes_nothing_is_applied() {
    let term = [3 << 60, 2 << 60 | 2, C, UNIT];
    let counts = [0, 0, 0, 1, 0, 0, 0, 0, 0, 0];
    assert_eq!(normal_form(TABLES, &term), Ok((vec![C], counts)));
}

#[test]
fn a_unit_reads_no_input() {
    let free = free_inputs(TABLES, &[UNIT]).expect("the term is accepted");
    assert_eq!(free.count, 0);
    let free = free_inputs(TABLES, &[4 << 60, UNIT, 1 << 30]).expect("the term is accepted");
    assert!(free.contains(0));
}

#[test]
fn refusals() {
    let types = |types| Tables { types, ..TABLES };
    for (number, tables, term) in [
        (2, types(&[0, 4 << 60 | 1]), &[UNIT][..]),
        (2, types(&[0, 4 << 60 | 1 << 30]), &[UNIT]),
        (2, types(&[0, 5 << 60]), &[C]),
        (3, types(&[4 << 60, 4 << 60]), &[C]),
        (6, TABLES, &[UNIT | 1 << 30]),
        (6, TABLES, &[11 << 60 | 3]),
        (6, TABLES, &[12 << 60]),
        (7, TABLES, &[UNIT, C]),
        (9, TABLES, &[11 << 60]),
        (9, TABLES, &[11 << 60 | 2]),
        (9, TABLES, &[3 << 60, 2 << 60 | 2, C, C]),
    ] {
        assert_eq!(normal_form(tables, term), Err(number), "{term:x?}");
    }
}

#[test]
fn the_plate_is_listed_as_in_its_file() {
    assert_eq!(respond(PLATE), PLATE_LISTING);
}
