//! The throw-away repository: the copied crates, and the further one beside them.

use super::copy::{copy_folder, make_empty_folder_outside};
use super::crosscheck::write_crosscheck;
use super::figures::{
    acting_figures, bundle_figures, case_figures, ceilings_figures, ends_figures, inputs_figures,
    run_figures, unit_figures,
};
use super::opened::opened_definitions;
use super::{bundles, cases, ceilings, ends, inputs, runs};
use crate::lines::bundles::bundle_line;
use crate::lines::cases::case_line;
use crate::lines::ceilings::ceilings_line;
use crate::lines::ends::ends_line;
use crate::lines::inputs::inputs_line;
use crate::lines::runs::run_line;
use crate::lines::{lines, Line};
use std::fs;
use std::io;
use std::path::Path;

/// The crates that hold the definitions.
const CRATES: [&str; 5] = ["syntax", "typing", "reduction", "semantics", "outcomes"];

/// Writes the throw-away repository; answers how many rows of which sort it holds.
pub fn write_repository(
    repository: &Path,
    folder: &Path,
    seed: u64,
    count: usize,
) -> io::Result<String> {
    let cases = lines_of(case_line, seed, count);
    let bundles = lines_of(bundle_line, seed, count.div_ceil(5));
    let runs = lines_of(run_line, seed, count.div_ceil(4));
    let inputs = lines_of(inputs_line, seed, count.div_ceil(5));
    let ceilings = lines_of(ceilings_line, seed, count.div_ceil(2));
    let ends = lines_of(ends_line, seed, count.div_ceil(2));

    make_empty_folder_outside(folder, repository)?;
    let crates = folder.join("crates");
    for name in CRATES {
        copy_folder(&repository.join("crates").join(name), &crates.join(name))?;
    }
    fs::write(
        folder.join("crates.txt"),
        listed_crates(&fs::read_to_string(repository.join("crates.txt"))?),
    )?;
    let opened = opened_definitions(&crates, &CRATES)?;
    let tables = [
        cases::table(&cases),
        bundles::table(&bundles),
        runs::table(&runs),
        inputs::table(&inputs),
        ceilings::table(&ceilings),
        ends::table(&ends),
    ];
    write_crosscheck(&crates.join("crosscheck"), &opened, seed, &tables)?;

    Ok([
        case_figures(&cases),
        bundle_figures(&bundles),
        run_figures(&runs),
        inputs_figures(&inputs),
        ceilings_figures(&ceilings),
        ends_figures(&ends),
        acting_figures(&cases, &runs, &inputs),
        unit_figures(&cases, &runs, &inputs),
    ]
    .concat())
}

fn lines_of(line: Line, seed: u64, count: usize) -> Vec<String> {
    lines(line, seed, count).collect()
}

/// The lines of crates.txt that list the copied crates, and one for the further crate.
fn listed_crates(all: &str) -> String {
    let is_copied = |line: &&str| {
        CRATES
            .iter()
            .any(|&name| line.split(':').next() == Some(name))
    };
    let copied: Vec<&str> = all.lines().filter(is_copied).collect();
    format!("{}\ncrosscheck: {}\n", copied.join("\n"), CRATES.join(" "))
}
