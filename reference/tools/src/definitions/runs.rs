//! Rows of the lines of `runs`: a run's answer, its trace, and the acting calls of the trace.

use super::notation::{list, words};
use super::tables::Table;
use oracle::words::{read_count, unpack_call};
use std::str::SplitWhitespace;

/// What the definitions make of a row, and what the line says.
const MEANING: &str = "\
-- A line of `runs`: tables and term, the values of the inputs, the answer and the trace of the run, and the acting calls in it.
use Rattle.std.specs.Prelude.{ℕ, zero, suc, ◌+◌, ◌*◌, ◌%◌, List, [], length}
use Rattle.std.proofs.Math.Option.{Option, some, none}
use Rattle.syntax.specs.Tables.{Tables, over, product, sum, unit_type, components, Signature, signature}
use Rattle.syntax.specs.Term.{Term}
use Rattle.syntax.specs.Decoding.{decode}
use Rattle.semantics.specs.Value.{Value, Values, num, closure, tuple, left, right, trivial, empty, also, Trace}
use Rattle.semantics.specs.Run.{RunOutcome, ended, stuck, spent, run}
use Rattle.semantics.specs.Claim.{acting_calls}

pub record Row : Type 0 where
  pub types : List ℕ
  pub calls : List ℕ
  pub inputs : List ℕ
  pub term : List ℕ
  pub values : Values
  pub answer : Value
  pub trace : Trace
  pub acting : Trace

-- how a run went, and the acting calls that it made
pub record Ran : Type 0 where
  pub outcome : RunOutcome Value
  pub acting : Trace

-- the sum of all numbers in a value, with 1 for each left and 2 for each right injection, and 3 for each unit
unfoldable pub weight : Value → ℕ
weight (num n) = n
weight (closure ρ b) = 0
weight (tuple v w) = weight v + weight w
weight (left v) = 1 + weight v
weight (right v) = 2 + weight v
weight trivial = 3

unfoldable pub weights : Values → ℕ
unfolding weight
weights empty = 0
weights (also v vs) = weight v + weights vs

-- left for an even number, else right
abbrev pub side : ℕ → Value → Value → Value
side zero v w = left v
side (suc n) v w = right w

-- a number spread over a type: itself at a base type, in both parts of a product, in one part of a sum, nowhere at the unit type; parts
-- go so many levels down
unfoldable pub spread : Tables → ℕ → ℕ → ℕ → Value
spread tables zero n A = num n
spread tables (suc levels) n A = elim (components tables product A) [
  | some p ↦ tuple (spread tables levels n p.0) (spread tables levels n p.1)
  | none ↦ elim (components tables sum A) [
    | some p ↦ side (n % 2) (spread tables levels n p.0) (spread tables levels n p.1)
    | none ↦ elim (components tables unit_type A) [
      | some p ↦ trivial
      | none ↦ num n
    ]
  ]
]

-- the fixed answering function; a type's parts are earlier, so no type has more levels than there are types
unfoldable pub answer_of : Tables → ℕ → Values → Value
answer_of tables k vs = elim (signature tables k) [
  | none ↦ num 0
  | some s ↦ spread tables (length tables.types) ((7 * k + 3 * weights vs + 1) % 5) s.result
]

-- a run of a term that is there, with fuel for a thousand nodes one inside another
unfoldable pub ran : Tables → Values → Option Term → RunOutcome Value
ran tables ρ none = stuck
ran tables ρ (some t) = run (answer_of tables) 1000 ρ t

unfoldable pub acting_of : List ℕ → RunOutcome Value → Trace
acting_of calls (ended v trace) = acting_calls calls trace
acting_of calls stuck = []
acting_of calls spent = []

unfoldable pub told : List ℕ → RunOutcome Value → Ran
told calls o = record { outcome = o; acting = acting_of calls o }

unfoldable pub computed : Row → Ran
computed x = told x.calls (ran (over x.types x.calls x.inputs) x.values (decode x.calls x.term))

unfoldable pub expected : Row → Ran
expected x = record { outcome = ended x.answer x.trace; acting = x.acting }
";

/// The table of some lines.
pub fn table(lines: &[String]) -> Table {
    Table {
        name: "Runs",
        subcommand: "runs",
        meaning: MEANING,
        own: &[
            "weight", "weights", "spread", "answer_of", "ran", "acting_of", "told",
        ],
        rows: lines.iter().map(|line| row(line)).collect(),
    }
}

/// The row of a line.
pub fn row(line: &str) -> String {
    let fields: Vec<&str> = line.split(';').collect();
    let [types, calls, inputs, term, input_values, answer, trace] = fields[..] else {
        panic!("a line of runs has seven fields");
    };
    let acts = acting_calls(calls);
    let acts = |number: usize| acts.get(number) == Some(&true);
    let (types, calls, inputs, term) = (words(types), words(calls), words(inputs), words(term));
    let input_values = values(input_values);
    let answer = value(&mut answer.split_whitespace());
    let made: Vec<&str> = trace.split('|').filter(|call| !call.is_empty()).collect();
    let trace = list(made.iter().map(|made| call(made)));
    let acting = made.iter().filter(|made| acts(number_of(made)));
    let acting = list(acting.map(|made| call(made)));
    format!(
        "record {{
      types = {types};
      calls = {calls};
      inputs = {inputs};
      term = {term};
      values = {input_values};
      answer = {answer};
      trace = {trace};
      acting = {acting};
    }}"
    )
}

/// Which calls of a table act.
pub fn acting_calls(calls: &str) -> Vec<bool> {
    let words = calls
        .split_whitespace()
        .map(|word| word.parse::<u64>().expect("a word"));
    let counts = words.map(|word| unpack_call(word).0);
    counts
        .map(|count| read_count(count).is_some_and(|(_, acts)| acts))
        .collect()
}

/// The number of a call made.
pub fn number_of(made: &str) -> usize {
    let (number, _) = made.split_once(':').expect("a number and arguments");
    number.parse().expect("a call's number")
}

/// A call made: `number:argument,argument`.
fn call(text: &str) -> String {
    let Some((number, arguments)) = text.split_once(':') else {
        panic!("a call in a trace has a number and arguments");
    };
    let arguments = values(&arguments.replace(',', " "));
    format!("record {{ number = {number}; arguments = {arguments} }}")
}

/// Values one after another.
fn values(text: &str) -> String {
    let mut tokens = text.split_whitespace();
    let mut items = Vec::new();
    while tokens.clone().next().is_some() {
        items.push(value(&mut tokens));
    }
    let empty = String::from("empty");
    items
        .iter()
        .rfold(empty, |rest, item| format!("(also {item} {rest})"))
}

/// The value that the next tokens stand for, in parentheses if it needs them.
fn value(tokens: &mut SplitWhitespace) -> String {
    match tokens.next() {
        Some("n") => format!("(num {})", tokens.next().expect("a number")),
        Some("p") => {
            let left = value(tokens);
            format!("(tuple {left} {})", value(tokens))
        }
        Some("l") => format!("(left {})", value(tokens)),
        Some("r") => format!("(right {})", value(tokens)),
        Some("u") => String::from("trivial"),
        token => panic!("no value starts with {token:?}"),
    }
}
