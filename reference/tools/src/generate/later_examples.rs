//! The shipped examples of later requests: the unit type, and an acting call that nobody reads.

use super::examples::Example;
use super::phrases::*;
use super::Sample;
use crate::show::legend::Legend;
use oracle::words::*;

/// A plate with a caption or without: a helper that takes nothing, and a choice with nothing in one
/// branch.
///
/// ```text
/// let unnamed = λu. number() in
/// let named = case caption(plate) of
///     left crop: title(recognise(crop))
///     right nothing: unnamed ()
/// in
/// file(plate, named)
/// ```
///
/// In the normal form there is no helper and no unit, and each branch names and files the plate.
pub fn plate() -> Example {
    const IMAGE: u64 = 0;
    const TEXT: u64 = 1;
    const NAME: u64 = 2;
    const RECORD: u64 = 3;
    const NOTHING: u64 = 4;
    const NOTHING_TO_NAME: u64 = 5;
    const IMAGE_OR_NOTHING: u64 = 6;
    const CAPTION: u64 = 0;
    const RECOGNISE: u64 = 1;
    const TITLE: u64 = 2;
    const NUMBER: u64 = 3;
    const FILE: u64 = 4;
    let unnamed = function(NOTHING_TO_NAME, &call(NUMBER, &[]));
    // Under the first let, the helper is variable 0 and the plate is variable 1; in a branch the
    // helper is variable 1.
    let recognised = call(RECOGNISE, &[&variable(0)]);
    let named = case(
        &call(CAPTION, &[&variable(1)]),
        &call(TITLE, &[&recognised]),
        &apply(&variable(1), &unit(NOTHING)),
    );
    let filed = call(FILE, &[&variable(2), &variable(0)]);
    Example {
        name: "plate",
        sample: Sample {
            types: vec![
                pack_type(BASE, 0, 0),
                pack_type(BASE, 1, 0),
                pack_type(BASE, 2, 0),
                pack_type(BASE, 3, 0),
                pack_type(UNIT_TYPE, 0, 0),
                pack_type(FUNCTION_TYPE, NOTHING, NAME),
                pack_type(SUM, IMAGE, NOTHING),
            ],
            calls: vec![
                pack_call(1, IMAGE_OR_NOTHING, [IMAGE, 0, 0]),
                pack_call(1, TEXT, [IMAGE, 0, 0]),
                pack_call(1, NAME, [TEXT, 0, 0]),
                pack_call(0, NAME, [0; 3]),
                pack_call(2, RECORD, [IMAGE, NAME, 0]),
            ],
            inputs: vec![IMAGE],
            term: let_in(&unnamed, &let_in(&named, &filed)),
        },
        legend: Legend {
            bases: &["image", "text", "name", "record"],
            calls: &["caption", "recognise", "title", "number", "file"],
            inputs: &["plate"],
        },
    }
}

/// A call that acts and one that does not, of which neither answer is used:
///
/// ```text
/// let prepare = λimage. let receipt = stamp(image) in deskew(image) in
/// let size = measure(page) in
/// transcribe(prepare page)
/// ```
///
/// In the normal form `stamp` is still called, before `deskew`, though nothing reads its receipt;
/// `measure`, which does not act, is dropped.
pub fn stamp() -> Example {
    const IMAGE: u64 = 0;
    const RECEIPT: u64 = 1;
    const SIZE: u64 = 2;
    const TEXT: u64 = 3;
    const IMAGE_TO_IMAGE: u64 = 4;
    const STAMP: u64 = 0;
    const DESKEW: u64 = 1;
    const MEASURE: u64 = 2;
    const TRANSCRIBE: u64 = 3;
    // In the helper, under the let, the image is variable 1.
    let stamped = let_in(
        &call(STAMP, &[&variable(0)]),
        &call(DESKEW, &[&variable(1)]),
    );
    let prepare = function(IMAGE_TO_IMAGE, &stamped);
    // Under one let, the page is variable 1; under both, the helper is variable 1.
    let measured = call(MEASURE, &[&variable(1)]);
    let prepared = apply(&variable(1), &variable(2));
    let transcribed = call(TRANSCRIBE, &[&prepared]);
    Example {
        name: "stamp",
        sample: Sample {
            types: vec![
                pack_type(BASE, 0, 0),
                pack_type(BASE, 1, 0),
                pack_type(BASE, 2, 0),
                pack_type(BASE, 3, 0),
                pack_type(FUNCTION_TYPE, IMAGE, IMAGE),
            ],
            calls: vec![
                pack_call(ACTING + 1, RECEIPT, [IMAGE, 0, 0]),
                pack_call(1, IMAGE, [IMAGE, 0, 0]),
                pack_call(1, SIZE, [IMAGE, 0, 0]),
                pack_call(1, TEXT, [IMAGE, 0, 0]),
            ],
            inputs: vec![IMAGE],
            term: let_in(&prepare, &let_in(&measured, &transcribed)),
        },
        legend: Legend {
            bases: &["image", "receipt", "size", "text"],
            calls: &["stamp", "deskew", "measure", "transcribe"],
            inputs: &["page"],
        },
    }
}
