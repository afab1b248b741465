//! Rows of the lines of `ends`: the end of the part at the front, and which fronts of the words decode.

use super::notation::words;
use super::tables::Table;

/// What the definitions make of a row, and what the line says.
const MEANING: &str = "\
-- A line of `ends`: call words and words, and where the part at the front ends.
use Rattle.std.specs.Prelude.{ℕ, zero, suc, Bool, false, List, [], ◌∷◌, length, take, eqb}
use Rattle.std.proofs.Math.Option.{Option, some, none}
use Rattle.syntax.specs.Maybe.{is_some}
use Rattle.syntax.specs.Decoding.{decode}
use Rattle.syntax.specs.Parts.{part_end}

pub record Row : Type 0 where
  pub calls : List ℕ
  pub words : List ℕ
  pub end : Option ℕ

-- the end, and of each front, from the longest to the shortest, whether it decodes to a term
pub record Answers : Type 0 where
  pub end : Option ℕ
  pub fronts : List Bool

unfoldable pub down_from : (ℕ → Bool) → ℕ → List Bool
down_from test zero = test zero ∷ []
down_from test (suc n) = test (suc n) ∷ down_from test n

unfoldable pub is_end : Option ℕ → ℕ → Bool
is_end none n = false
is_end (some m) n = eqb m n

unfoldable pub computed : Row → Answers
computed x = record {
  end = part_end x.calls x.words;
  fronts = down_from (λ n. is_some (decode x.calls (take n x.words))) (length x.words);
}

unfoldable pub expected : Row → Answers
expected x = record { end = x.end; fronts = down_from (is_end x.end) (length x.words) }
";

/// The table of some lines.
pub fn table(lines: &[String]) -> Table {
    Table {
        name: "Ends",
        subcommand: "ends",
        meaning: MEANING,
        own: &["down_from", "is_end"],
        rows: lines.iter().map(|line| row(line)).collect(),
    }
}

/// The row of a line.
pub fn row(line: &str) -> String {
    let fields: Vec<&str> = line.split(';').collect();
    let [calls, all, end] = fields[..] else {
        panic!("a line of ends has three fields");
    };
    let (calls, all) = (words(calls), words(all));
    let end = match end {
        "-" => String::from("none"),
        number => format!("some {number}"),
    };
    format!(
        "record {{
      calls = {calls};
      words = {all};
      end = {end};
    }}"
    )
}
