//! The shipped examples: small terms, with names for what their tables hold.

use super::later_examples::{plate, stamp};
use super::phrases::*;
use super::Sample;
use crate::show::legend::Legend;
use oracle::words::*;

/// A sample and the names of its base types, calls and inputs.
pub struct Example {
    pub name: &'static str,
    pub sample: Sample,
    pub legend: Legend,
}

pub fn examples() -> [Example; 5] {
    [sample(), register(), tithe(), plate(), stamp()]
}

/// The examples of the base dialect, in which no call acts.
pub fn base_examples() -> [Example; 3] {
    [sample(), register(), tithe()].map(|example| Example {
        sample: example.sample.without_acting_calls(),
        ..example
    })
}

/// Case A of paper 01: `(λx. d(x)) c()`.
fn sample() -> Example {
    const B: u64 = 0;
    const B_TO_B: u64 = 1;
    const C: u64 = 0;
    const D: u64 = 1;
    let head = function(B_TO_B, &call(D, &[&variable(0)]));
    Example {
        name: "sample",
        sample: Sample {
            types: vec![
                pack_type(BASE, 0, 0),
                pack_type(FUNCTION_TYPE, B, B),
                pack_type(PRODUCT, B, B),
                pack_type(SUM, B, B),
            ],
            calls: vec![pack_call(0, B, [0; 3]), pack_call(1, B, [B, 0, 0])],
            inputs: vec![],
            term: apply(&head, &call(C, &[])),
        },
        legend: Legend {
            bases: &["b"],
            calls: &["c", "d"],
            inputs: &[],
        },
    }
}

/// Both halves of one call's answer, through one function that is applied twice:
///
/// ```text
/// let column = λcell. transcribe(cell) in
/// let cells = recognise(deskew(page)) in
/// (column (first cells), column (second cells))
/// ```
///
/// In the normal form there is no function, and `recognise` is called once.
fn register() -> Example {
    const IMAGE: u64 = 0;
    const CELL: u64 = 1;
    const NAME: u64 = 2;
    const TWO_CELLS: u64 = 3;
    const TWO_NAMES: u64 = 4;
    const CELL_TO_NAME: u64 = 5;
    const DESKEW: u64 = 0;
    const RECOGNISE: u64 = 1;
    const TRANSCRIBE: u64 = 2;
    let column = function(CELL_TO_NAME, &call(TRANSCRIBE, &[&variable(0)]));
    // Under one let, the input is variable 1.
    let cells = call(RECOGNISE, &[&call(DESKEW, &[&variable(1)])]);
    // Under both, the cells are variable 0 and the function is variable 1.
    let left = apply(&variable(1), &first(&variable(0)));
    let right = apply(&variable(1), &second(&variable(0)));
    let columns = pair(TWO_NAMES, &left, &right);
    Example {
        name: "register",
        sample: Sample {
            types: vec![
                pack_type(BASE, 0, 0),
                pack_type(BASE, 1, 0),
                pack_type(BASE, 2, 0),
                pack_type(PRODUCT, CELL, CELL),
                pack_type(PRODUCT, NAME, NAME),
                pack_type(FUNCTION_TYPE, CELL, NAME),
            ],
            calls: vec![
                pack_call(1, IMAGE, [IMAGE, 0, 0]),
                pack_call(1, TWO_CELLS, [IMAGE, 0, 0]),
                pack_call(1, NAME, [CELL, 0, 0]),
            ],
            inputs: vec![IMAGE],
            term: let_in(&column, &let_in(&cells, &columns)),
        },
        legend: Legend {
            bases: &["image", "cell", "name"],
            calls: &["deskew", "recognise", "transcribe"],
            inputs: &["page"],
        },
    }
}

/// A case inside a function, whose result is the subject of another case:
///
/// ```text
/// let reading = λsheet. case inspect(sheet) of
///     left mark: left mark
///     right image: right recognise(image)
/// in
/// case reading sheet of
///     left mark: clear(batch)
///     right text: store(batch, text)
/// ```
///
/// In the normal form one case is left, and each branch makes the calls of its side only. The calls
/// `clear` and `store` act.
pub fn tithe() -> Example {
    const IMAGE: u64 = 0;
    const BATCH: u64 = 1;
    const MARK: u64 = 2;
    const TEXT: u64 = 3;
    const RECEIPT: u64 = 4;
    const MARK_OR_IMAGE: u64 = 5;
    const MARK_OR_TEXT: u64 = 6;
    const IMAGE_TO_READING: u64 = 7;
    const INSPECT: u64 = 0;
    const RECOGNISE: u64 = 1;
    const CLEAR: u64 = 2;
    const STORE: u64 = 3;
    let recognised = call(RECOGNISE, &[&variable(0)]);
    let inspected = case(
        &call(INSPECT, &[&variable(0)]),
        &left(MARK_OR_TEXT, &variable(0)),
        &right(MARK_OR_TEXT, &recognised),
    );
    let reading = function(IMAGE_TO_READING, &inspected);
    // Under the let, the function is variable 0 and the inputs are variables 1 and 2.
    let read = apply(&variable(0), &variable(1));
    let cleared = call(CLEAR, &[&variable(3)]);
    let stored = call(STORE, &[&variable(3), &variable(0)]);
    Example {
        name: "tithe",
        sample: Sample {
            types: vec![
                pack_type(BASE, 0, 0),
                pack_type(BASE, 1, 0),
                pack_type(BASE, 2, 0),
                pack_type(BASE, 3, 0),
                pack_type(BASE, 4, 0),
                pack_type(SUM, MARK, IMAGE),
                pack_type(SUM, MARK, TEXT),
                pack_type(FUNCTION_TYPE, IMAGE, MARK_OR_TEXT),
            ],
            calls: vec![
                pack_call(1, MARK_OR_IMAGE, [IMAGE, 0, 0]),
                pack_call(1, TEXT, [IMAGE, 0, 0]),
                pack_call(ACTING + 1, RECEIPT, [BATCH, 0, 0]),
                pack_call(ACTING + 2, RECEIPT, [BATCH, TEXT, 0]),
            ],
            inputs: vec![IMAGE, BATCH],
            term: let_in(&reading, &case(&read, &cleared, &stored)),
        },
        legend: Legend {
            bases: &["image", "batch", "mark", "text", "receipt"],
            calls: &["inspect", "recognise", "clear", "store"],
            inputs: &["sheet", "batch"],
        },
    }
}
