//! Rows of the lines of `ceilings`: the answer of normalize under settings with ceilings, with the
//! buffers.

use super::notation::words;
use super::tables::Table;

/// What the definitions make of a row, and what the line says.
const MEANING: &str = "\
-- A line of `ceilings`: tables and term, what normalize is lent, and its answer.
use Rattle.std.specs.Prelude.{ℕ, List, ◌++◌, replicate}
use Rattle.syntax.specs.Tables.{over}
use Rattle.reduction.specs.declared.Settings.{Settings}
use Rattle.outcomes.specs.Normalize.{Buffers, Outcome, normalize_outcome}

pub record Row : Type 0 where
  pub types : List ℕ
  pub calls : List ℕ
  pub inputs : List ℕ
  pub term : List ℕ
  -- what is lent: the settings, and the lengths of the output and the scratch buffers
  pub budget : ℕ
  pub ceilings : List ℕ
  pub output : ℕ
  pub scratch₁ : ℕ
  pub scratch₂ : ℕ
  -- the answer, the normal form's words (none where refused), and how many words of the output are left as they were
  pub refusal : ℕ
  pub type : ℕ
  pub length' : ℕ
  pub counts : List ℕ
  pub normal_form : List ℕ
  pub unchanged : ℕ

-- buffers hold 9s at entry
abbrev pub nines : ℕ → List ℕ
nines n = replicate n 9

unfoldable pub computed : Row → Outcome
computed x = normalize_outcome settings (over x.types x.calls x.inputs) x.term buffers
  where
    settings : Settings
    settings = record { budget = x.budget; ceilings = x.ceilings }

    buffers : Buffers
    buffers = record { output = nines x.output; scratch₁ = nines x.scratch₁; scratch₂ = nines x.scratch₂ }

unfoldable pub expected : Row → Outcome
expected x = record {
  answer = record { refusal = x.refusal; ty = x.type; length = x.length'; counts = x.counts };
  buffers = record {
    output = x.normal_form ++ nines x.unchanged;
    scratch₁ = replicate x.scratch₁ 0;
    scratch₂ = replicate x.scratch₂ 0;
  };
}
";

/// The table of some lines.
pub fn table(lines: &[String]) -> Table {
    Table {
        name: "Ceilings",
        subcommand: "ceilings",
        meaning: MEANING,
        own: &[],
        rows: lines.iter().map(|line| row(line)).collect(),
    }
}

/// The row of a line.
pub fn row(line: &str) -> String {
    let fields: Vec<&str> = line.split(';').collect();
    let [types, calls, inputs, term, budget, ceilings, output, first_scratch, second_scratch, refusal, type_number, length, counts, normal_form] =
        fields[..]
    else {
        panic!("a line of ceilings has fourteen fields");
    };
    let number = |text: &str| text.parse::<usize>().expect("a number");
    let unchanged = number(output) - number(length);
    let (types, calls, inputs, term) = (words(types), words(calls), words(inputs), words(term));
    let (ceilings, counts, normal_form) = (words(ceilings), words(counts), words(normal_form));
    format!(
        "record {{
      types = {types};
      calls = {calls};
      inputs = {inputs};
      term = {term};
      budget = {budget};
      ceilings = {ceilings};
      output = {output}; scratch₁ = {first_scratch}; scratch₂ = {second_scratch};
      refusal = {refusal}; type = {type_number}; length' = {length};
      counts = {counts};
      normal_form = {normal_form};
      unchanged = {unchanged};
    }}"
    )
}
