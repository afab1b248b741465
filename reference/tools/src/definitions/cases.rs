//! Rows of the lines of `cases`: the answers of normalize, check, is_normal and free_inputs, with the
//! buffers, and the types of all nodes.

use super::notation::{list, words};
use super::tables::Table;
use crate::generate::Sample;
use oracle::typing::node_types;

/// What the definitions make of a row, and what the line says.
const MEANING: &str = "\
-- A line of `cases`: tables and term, what normalize is lent, and the answers of normalize, check, is_normal and free_inputs.
use Rattle.std.specs.Prelude.{ℕ, zero, suc, Bool, false, List, ◌++◌, replicate}
use Rattle.std.proofs.Math.Option.{Option, none}
use Rattle.syntax.specs.Tables.{Tables, over}
use Rattle.syntax.specs.Pending.{pending}
use Rattle.typing.specs.NodeTypes.{node_types}
use Rattle.typing.specs.Refusals.{Verdict, refused, accepted, TypedTerm, elaborate, other_limit}
use Rattle.reduction.specs.MayDrop.{may_drop}
use Rattle.reduction.specs.Grammar.{in_grammar}
use Rattle.reduction.specs.Reduction.{no_ceilings}
use Rattle.outcomes.specs.declared.Checked.{Checked}
use Rattle.outcomes.specs.declared.Tested.{Tested}
use Rattle.outcomes.specs.declared.FreeInputs.{FreeInputs}
use Rattle.outcomes.specs.Normalize.{Outcome, normalize_outcome}
use Rattle.outcomes.specs.Check.{check_outcome}
use Rattle.outcomes.specs.IsNormal.{is_normal_outcome}
use Rattle.outcomes.specs.FreeInputs.{free_inputs_outcome}

pub record Row : Type 0 where
  pub types : List ℕ
  pub calls : List ℕ
  pub inputs : List ℕ
  pub term : List ℕ
  -- what is lent: the budget, and the lengths of the output and the scratch buffers
  pub budget : ℕ
  pub output : ℕ
  pub scratch₁ : ℕ
  pub scratch₂ : ℕ
  -- normalize's answer, the normal form's words (none where refused), and how many words of the output are left as they were
  pub refusal : ℕ
  pub type : ℕ
  pub length' : ℕ
  pub counts : List ℕ
  pub normal_form : List ℕ
  pub unchanged : ℕ
  -- the answers of check, is_normal and free_inputs
  pub check_refusal : ℕ
  pub check_type : ℕ
  pub normal_refusal : ℕ
  pub yes : Bool
  pub inputs_refusal : ℕ
  pub inputs_count : ℕ
  pub inputs_marks : List ℕ
  -- the types of all nodes of a term that passes the checks, and the steps of phase 1 of one that is normalized (else 0)
  pub node_types' : Option (List ℕ)
  pub insertions : ℕ

-- what is compared
pub record Result : Type 0 where
  pub outcome : Outcome
  pub checked : Checked
  pub tested : Tested
  pub free_inputs : FreeInputs
  pub grammar : Bool
  pub node_types' : Option (List ℕ)
  pub insertions : ℕ

-- buffers hold 9s at entry
abbrev pub nines : ℕ → List ℕ
nines n = replicate n 9

abbrev pub tables_of : Row → Tables
tables_of x = over x.types x.calls x.inputs

-- of a term that passes the checks: whether it is in the grammar, the types of its nodes, and its pending operands
abbrev pub grammar_of : List ℕ → Verdict TypedTerm → Bool
grammar_of calls (refused n) = false
grammar_of calls (accepted x) = in_grammar (may_drop calls) x.term

abbrev pub node_types_of : Tables → Verdict TypedTerm → Option (List ℕ)
node_types_of tables (refused n) = none
node_types_of tables (accepted x) = node_types tables x.term tables.inputs

abbrev pub pending_of : Verdict TypedTerm → ℕ
pending_of (refused n) = 0
pending_of (accepted x) = pending x.term

-- a number that counts only where nothing is refused
abbrev pub unless : ℕ → ℕ → ℕ
unless zero n = n
unless (suc refusal) n = 0

unfoldable pub outcome_of : Row → Outcome
outcome_of x = normalize_outcome (no_ceilings x.budget) (tables_of x) x.term (record {
  output = nines x.output;
  scratch₁ = nines x.scratch₁;
  scratch₂ = nines x.scratch₂;
})

unfoldable pub elaborated : Row → Verdict TypedTerm
elaborated x = elaborate other_limit (tables_of x) x.term

unfoldable pub computed : Row → Result
computed x = record {
  outcome = outcome_of x;
  checked = check_outcome (tables_of x) x.term;
  tested = is_normal_outcome (tables_of x) x.term;
  free_inputs = free_inputs_outcome (tables_of x) x.term;
  grammar = grammar_of x.calls (elaborated x);
  node_types' = node_types_of (tables_of x) (elaborated x);
  insertions = unless ((outcome_of x).answer.refusal) (pending_of (elaborated x));
}

unfoldable pub expected : Row → Result
expected x = record {
  outcome = record {
    answer = record { refusal = x.refusal; ty = x.type; length = x.length'; counts = x.counts };
    buffers = record {
      output = x.normal_form ++ nines x.unchanged;
      scratch₁ = replicate x.scratch₁ 0;
      scratch₂ = replicate x.scratch₂ 0;
    };
  };
  checked = record { refusal = x.check_refusal; ty = x.check_type };
  tested = record { refusal = x.normal_refusal; normal = x.yes };
  free_inputs = record { refusal = x.inputs_refusal; marks = x.inputs_marks; count = x.inputs_count };
  grammar = x.yes;
  node_types' = x.node_types';
  insertions = x.insertions;
}
";

/// The table of some lines.
pub fn table(lines: &[String]) -> Table {
    Table {
        name: "Cases",
        subcommand: "cases",
        meaning: MEANING,
        own: &["outcome_of", "elaborated"],
        rows: lines.iter().map(|line| row(line)).collect(),
    }
}

/// The row of a line.
pub fn row(line: &str) -> String {
    let fields: Vec<&str> = line.split(';').collect();
    let [types, calls, inputs, term, budget, output, first_scratch, second_scratch, refusal, type_number, length, counts, normal_form, check_refusal, check_type, normal_refusal, normal_yes, inputs_refusal, inputs_count, inputs_marks] =
        fields[..]
    else {
        panic!("a line of cases has twenty fields");
    };
    let unchanged = number(output) - number(length);
    let yes = normal_yes == "1";
    let sample = Sample {
        types: numbers(types),
        calls: numbers(calls),
        inputs: numbers(inputs),
        term: numbers(term),
    };
    let node_types = node_types_text(&sample);
    let insertions = match refusal {
        "0" => counts.split_whitespace().next().expect("ten counts"),
        _ => "0",
    };
    let (types, calls, inputs, term) = (words(types), words(calls), words(inputs), words(term));
    let (counts, normal_form) = (words(counts), words(normal_form));
    let inputs_marks = words(inputs_marks);
    format!(
        "record {{
      types = {types};
      calls = {calls};
      inputs = {inputs};
      term = {term};
      budget = {budget}; output = {output}; scratch₁ = {first_scratch}; scratch₂ = {second_scratch};
      refusal = {refusal}; type = {type_number}; length' = {length};
      counts = {counts};
      normal_form = {normal_form};
      unchanged = {unchanged};
      check_refusal = {check_refusal}; check_type = {check_type}; normal_refusal = {normal_refusal}; yes = {yes};
      inputs_refusal = {inputs_refusal}; inputs_count = {inputs_count};
      inputs_marks = {inputs_marks};
      node_types' = {node_types};
      insertions = {insertions};
    }}"
    )
}

/// The types of all nodes of a term that passes the checks.
fn node_types_text(sample: &Sample) -> String {
    let checked = sample.examine().ok();
    let types = checked.and_then(|checked| node_types(&checked.tables, &checked.term));
    types.map_or(String::from("none"), |types| {
        format!("some ({})", list(types))
    })
}

fn number(text: &str) -> usize {
    text.parse().expect("a number")
}

fn numbers(text: &str) -> Vec<u64> {
    let words = text.split_whitespace();
    words.map(|word| word.parse().expect("a word")).collect()
}
