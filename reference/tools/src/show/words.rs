//! The words of a bundle, each with its fields and what it stands for.

use super::layout::layout;
use super::tables::{call_text, input_text, type_text};
use super::types::Formulas;
use crate::generate::Sample;
use oracle::term::Term;
use oracle::words::*;

/// A line for each word; parts of a term are set in.
pub fn words_text(sample: &Sample, formulas: Formulas, term: &Term) -> String {
    let mut text = header_text(sample);
    text += "\ntypes             kind  left  right\n";
    for (number, &word) in sample.types.iter().enumerate() {
        let (kind, left, right) = unpack_type(word);
        let meaning = type_text(formulas, number);
        text += &format!("{word:016x}  {kind:4}  {left:4}  {right:5}  {meaning}\n");
    }
    text += "\ncalls             count  result  their types\n";
    for (number, &word) in sample.calls.iter().enumerate() {
        let (count, result, [one, two, three]) = unpack_call(word);
        let meaning = call_text(formulas, number);
        text +=
            &format!("{word:016x}  {count:5}  {result:6}  {one:3} {two:3} {three:3}  {meaning}\n");
    }
    text += "\ninputs            type\n";
    for (number, &word) in sample.inputs.iter().enumerate() {
        text += &format!("{word:016x}  {word:4}  {}\n", input_text(formulas, number));
    }
    text += "\nterm              kind  number  type\n";
    for (node, &word) in layout(term, formulas.legend).iter().zip(&sample.term) {
        let (kind, number, type_number) = unpack_term(word);
        // Deep terms are not set in further than can be read.
        let meaning = "  ".repeat(node.row.min(40)) + &node.label;
        text += &format!("{word:016x}  {kind:4}  {number:6}  {type_number:4}  {meaning}\n");
    }
    text
}

fn header_text(sample: &Sample) -> String {
    let tables = [&sample.types, &sample.calls, &sample.inputs, &sample.term];
    let [types, calls, inputs, term] = tables.map(|table| table.len() as u64);
    let header = pack_header([types, calls, inputs, term]);
    format!(
        "header            types  calls  inputs  term\n\
         {header:016x}  {types:5}  {calls:5}  {inputs:6}  {term:4}\n"
    )
}
