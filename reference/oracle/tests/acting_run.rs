//! Runs of terms with calls that act: the normal form makes each acting call of the source, in order,
//! and no further call.

mod runs;

use oracle::checks::Checked;
use oracle::reduction::walk;
use oracle::run::CallRecord;
use oracle::settings::Settings;
use oracle::tables::Tables;
use runs::{run_walk, MOST_WORDS};
use tools::generate::each::each_acting_sample;
use tools::generate::runs::run_term;

/// The calls of a trace that act, with their arguments.
fn acting_calls<'a, 't>(tables: &Tables, trace: &'a [CallRecord<'t>]) -> Vec<&'a CallRecord<'t>> {
    let acts = |record: &&CallRecord| tables.signature_at(record.call).acts;
    trace.iter().filter(acts).collect()
}

/// How many runs were compared, and of how many it holds that.
#[derive(Debug, Default)]
struct Figures {
    compared: usize,
    with_acting_calls: usize,
    with_several: usize,
    with_other_calls: usize,
    shorter: usize,
    shorter_and_acting: usize,
    with_loss_by_the_old_drop: usize,
}

#[test]
fn each_acting_call_is_made_in_order() {
    let mut figures = Figures::default();
    each_acting_sample(131, 8000, 60, |random, sample| {
        let checked = sample.examine().expect("generated samples are well typed");
        let Checked { tables, term, .. } = &checked;
        run_walk(random, &checked, 1, |inputs, seed, runs| {
            let (source, last) = (&runs[0], &runs[runs.len() - 1]);
            let acting = acting_calls(tables, &source.trace);
            for run in runs {
                assert_eq!(acting_calls(tables, &run.trace), acting);
            }

            let is_shorter = last.trace.len() < source.trace.len();
            figures.compared += 1;
            figures.with_acting_calls += usize::from(!acting.is_empty());
            figures.with_several += usize::from(acting.len() > 1);
            figures.with_other_calls += usize::from(acting.len() < last.trace.len());
            figures.shorter += usize::from(is_shorter);
            figures.shorter_and_acting += usize::from(is_shorter && !acting.is_empty());

            // The normal form over a table in which no call acts, run beside.
            let plain = sample.without_acting_calls().examine();
            let plain = plain.expect("the types are the same").tables;
            let old = walk(
                &plain,
                term.clone(),
                Settings::no_ceilings(u32::MAX),
                MOST_WORDS,
            );
            let (old_form, _) = old.expect("the same terms up to phase 3");
            let old_run = run_term(tables, &old_form, inputs, seed).expect("shorter runs end");
            let loses = acting_calls(tables, &old_run.trace) != acting;
            figures.with_loss_by_the_old_drop += usize::from(loses);
        });
    });
    println!("{figures:?}");
    assert!(figures.compared > 4000, "{figures:?}");
    assert!(figures.with_acting_calls > 1500 && figures.with_several > 700);
    assert!(figures.with_other_calls > 500, "{figures:?}");
    assert!(figures.shorter > 700 && figures.shorter_and_acting > 200);
    assert!(figures.with_loss_by_the_old_drop > 700, "{figures:?}");
}
