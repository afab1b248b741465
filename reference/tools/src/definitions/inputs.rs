//! Rows of the lines of `inputs`: the answer of free_inputs.

use super::notation::words;
use super::tables::Table;

/// What the definitions make of a row, and what the line says.
const MEANING: &str = "\
-- A line of `inputs`: tables and term, and the answer of free_inputs.
use Rattle.std.specs.Prelude.{ℕ, List}
use Rattle.syntax.specs.Tables.{over}
use Rattle.outcomes.specs.declared.FreeInputs.{FreeInputs}
use Rattle.outcomes.specs.FreeInputs.{free_inputs_outcome}

pub record Row : Type 0 where
  pub types : List ℕ
  pub calls : List ℕ
  pub inputs : List ℕ
  pub term : List ℕ
  pub inputs_refusal : ℕ
  pub inputs_count : ℕ
  pub inputs_marks : List ℕ

unfoldable pub computed : Row → FreeInputs
computed x = free_inputs_outcome (over x.types x.calls x.inputs) x.term

unfoldable pub expected : Row → FreeInputs
expected x = record { refusal = x.inputs_refusal; marks = x.inputs_marks; count = x.inputs_count }
";

/// The table of some lines.
pub fn table(lines: &[String]) -> Table {
    Table {
        name: "Inputs",
        subcommand: "inputs",
        meaning: MEANING,
        own: &[],
        rows: lines.iter().map(|line| row(line)).collect(),
    }
}

/// The row of a line.
pub fn row(line: &str) -> String {
    let fields: Vec<&str> = line.split(';').collect();
    let [types, calls, inputs, term, refusal, count, marks] = fields[..] else {
        panic!("a line of inputs has seven fields");
    };
    let (types, calls, inputs, term) = (words(types), words(calls), words(inputs), words(term));
    let marks = words(marks);
    format!(
        "record {{
      types = {types};
      calls = {calls};
      inputs = {inputs};
      term = {term};
      inputs_refusal = {refusal}; inputs_count = {count};
      inputs_marks = {marks};
    }}"
    )
}
