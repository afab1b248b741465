//! Runs of terms over hashed answers, and how their traces compare.

use super::values::HashedAnswers;
use oracle::run::{run, CallRecord, Run, Value};
use oracle::tables::Tables;
use oracle::term::Term;

/// The nodes that a run may begin.
const FUEL: u64 = 200_000;

/// The run of a term, unless it takes too long; the seed decides what the calls answer.
pub fn run_term<'t>(
    tables: &Tables,
    term: &'t Term,
    inputs: &[Value<'t>],
    seed: u64,
) -> Option<Run<'t>> {
    run(term, inputs, &HashedAnswers { tables, seed }, FUEL).ok()
}

/// Whether `part` is `whole` with some items struck out or none.
pub fn is_sublist(part: &[CallRecord], whole: &[CallRecord]) -> bool {
    let mut remaining = whole.iter();
    part.iter()
        .all(|item| remaining.any(|candidate| candidate == item))
}
