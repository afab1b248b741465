//! Runs of all terms of a walk: demand 3's second half.

use oracle::checks::Checked;
use oracle::reduction::sequence;
use oracle::run::{Run, Value};
use oracle::subformula::has_first_order_interface;
use tools::generate::runs::{is_sublist, run_term};
use tools::generate::values::random_inputs;
use tools::random::Random;

/// The words all terms of a listed walk may have together.
pub const MOST_WORDS: usize = 30_000;

/// Runs each term of the walk `times` times, each time with other inputs and another seed for the
/// answers, if demand 3's premise holds. Before phase 3 the run is that of the source; in phase 3
/// the answer is the same, and the calls are those before with some struck out or none. Hands
/// to `test` the inputs, the seed, and the runs: of the source, then of the term after each drop.
pub fn run_walk(
    random: &mut Random,
    checked: &Checked,
    times: usize,
    mut test: impl FnMut(&[Value], u64, &[Run]),
) {
    let Checked {
        tables,
        term,
        type_number,
    } = checked;
    if !has_first_order_interface(tables, term, *type_number) {
        return;
    }
    let Some(listed) = sequence(tables, term, MOST_WORDS) else {
        return;
    };
    let (kept, dropped) = listed.terms.split_at(listed.removal_start() + 1);
    for _ in 0..times {
        let inputs = random_inputs(random, tables);
        let seed = random.bits();
        let Some(source) = run_term(tables, term, &inputs, seed) else {
            continue;
        };
        for term in kept {
            let run = run_term(tables, term, &inputs, seed);
            assert_eq!(run.as_ref(), Some(&source));
        }
        let mut runs = vec![source];
        for term in dropped {
            let run = run_term(tables, term, &inputs, seed).expect("shorter runs end");
            assert_eq!(run.answer, runs[0].answer);
            assert!(is_sublist(&run.trace, &runs[runs.len() - 1].trace));
            runs.push(run);
        }
        test(&inputs, seed, &runs);
    }
}
