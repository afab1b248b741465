//! Tables of rows in proof modules, each with the theorem that all its rows agree.

use super::opened::Opened;

/// Rows for one theorem; more of them in one make a failure hard to read.
const ROWS_IN_A_MODULE: usize = 50;

/// Rows of one sort, and what they mean.
pub struct Table {
    pub name: &'static str,
    /// The subcommand whose lines the rows are.
    pub subcommand: &'static str,
    /// The module of specs/ that defines `Row`, `computed` and `expected`.
    pub meaning: &'static str,
    /// The further definitions of that module that a computation opens.
    pub own: &'static [&'static str],
    pub rows: Vec<String>,
}

/// The proof modules of a table: their names and texts.
pub fn table_modules(table: &Table, opened: &Opened, seed: u64) -> Vec<(String, String)> {
    let parts = table.rows.chunks(ROWS_IN_A_MODULE).enumerate();
    parts
        .map(|(index, rows)| {
            let module = format!("{}{}", table.name, index + 1);
            let first = index * ROWS_IN_A_MODULE + 1;
            (module, module_text(table, opened, seed, first, rows))
        })
        .collect()
}

fn module_text(table: &Table, opened: &Opened, seed: u64, first: usize, rows: &[String]) -> String {
    let Table {
        name, subcommand, ..
    } = table;
    let last = first + rows.len() - 1;
    let all = table.rows.len();
    let uses = &opened.uses;
    let own: String = table.own.iter().map(|name| format!(", {name}")).collect();
    let names = wrapped(
        opened
            .names
            .iter()
            .map(String::as_str)
            .chain(table.own.iter().copied()),
    );
    let rows = rows.join("\n    ∷ ");
    format!(
        "-- Lines {first} to {last} of `{subcommand} {seed} {all}`.
use Rattle.std.specs.Prelude.{{ℕ, ◌≡◌, refl, Bool, true, false, List, [], ◌∷◌, map}}
use Rattle.std.proofs.Math.Option.{{some, none}}
use Rattle.semantics.specs.Value.{{num, tuple, left, right, trivial, empty, also}}
{uses}use Rattle.crosscheck.specs.{name}.{{Row, computed, expected{own}}}

unfoldable pub rows : List Row
rows =
    {rows}
    ∷ []

-- every definition on the way is opened
pub agree : map computed rows ≡ map expected rows
unfolding rows computed expected
{names}agree = refl
"
    )
}

/// Names in lines of ten.
fn wrapped<'a>(names: impl Iterator<Item = &'a str>) -> String {
    let names: Vec<&str> = names.collect();
    let lines = names.chunks(10);
    lines
        .map(|line| format!("    {}\n", line.join(" ")))
        .collect()
}
