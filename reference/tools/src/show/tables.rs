//! The entries of the three tables as text.

use super::types::Formulas;

/// All entries, a line each.
pub fn tables_text(formulas: Formulas) -> String {
    let mut text = String::from("types\n");
    for number in 0..formulas.tables.types.len() {
        text += &format!("  {}\n", type_text(formulas, number));
    }
    text += "calls\n";
    for number in 0..formulas.tables.signatures.len() {
        text += &format!("  {}\n", call_text(formulas, number));
    }
    text += "inputs\n";
    for number in 0..formulas.tables.inputs.len() {
        text += &format!("  {}\n", input_text(formulas, number));
    }
    text
}

pub fn type_text(formulas: Formulas, number: usize) -> String {
    format!("t{number} = {}", formulas.formula(number as u32))
}

pub fn call_text(formulas: Formulas, number: usize) -> String {
    let signature = &formulas.tables.signatures[number];
    let arguments = signature.arguments.iter();
    let arguments: Vec<String> = arguments.map(|&t| formulas.short(t)).collect();
    let call = formulas.legend.call_entry(number);
    let result = formulas.short(signature.result);
    let acting = if signature.acts { ", acting" } else { "" };
    format!("{call}({}): {result}{acting}", arguments.join(", "))
}

pub fn input_text(formulas: Formulas, number: usize) -> String {
    let input = formulas.legend.input_entry(number);
    let type_number = formulas.tables.inputs[number];
    format!("{input}: {}", formulas.short(type_number))
}
