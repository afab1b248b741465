//! Rows of the lines of `bundles`: the bytes that the program writes for a bundle.

use super::notation::bytes;
use super::tables::Table;

/// What the definitions make of a row, and what the line says.
const MEANING: &str = "\
-- A line of `bundles`: the bytes of a bundle, and the bytes that the program writes for it.
use Rattle.std.specs.Prelude.{ℕ, List}
use Rattle.outcomes.specs.Respond.{response}

pub record Row : Type 0 where
  pub bundle : List ℕ
  pub written : List ℕ

unfoldable pub computed : Row → List ℕ
computed x = response x.bundle

unfoldable pub expected : Row → List ℕ
expected x = x.written
";

/// The table of some lines.
pub fn table(lines: &[String]) -> Table {
    Table {
        name: "Bundles",
        subcommand: "bundles",
        meaning: MEANING,
        own: &[],
        rows: lines.iter().map(|line| row(line)).collect(),
    }
}

/// The row of a line.
pub fn row(line: &str) -> String {
    let Some((bundle, written)) = line.split_once(';') else {
        panic!("a line of bundles has two fields");
    };
    let (bundle, written) = (bytes(bundle), bytes(written));
    format!("record {{\n      bundle = {bundle};\n      written = {written};\n    }}")
}
