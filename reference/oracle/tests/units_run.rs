//! Runs of terms with units in their inputs, arguments and answers: the normal form has the same
//! answer and no further call, and a unit is the same as a unit.

mod runs;

use oracle::run::{run, Value};
use oracle::subformula::has_function;
use oracle::tables::Tables;
use oracle::term::Term;
use runs::run_walk;
use tools::generate::each::each_unit_sample;
use tools::generate::phrases::*;
use tools::generate::units::*;
use tools::generate::values::FixedAnswers;
use tools::generate::Sample;

const FUEL: u64 = 100_000;

fn has_unit(value: &Value) -> bool {
    match value {
        Value::Unit => true,
        Value::Pair(halves) => has_unit(&halves.0) || has_unit(&halves.1),
        Value::Left(value) | Value::Right(value) => has_unit(value),
        Value::Number(_) | Value::Closure(..) => false,
    }
}

#[test]
fn runs_give_the_same_answer_and_the_same_calls() {
    let (mut compared, mut shorter) = (0, 0);
    let (mut in_inputs, mut in_arguments, mut in_answers) = (0, 0, 0);
    each_unit_sample(91, 5000, 50, |random, sample| {
        let checked = sample.examine().expect("generated samples are well typed");
        run_walk(random, &checked, 1, |inputs, _, runs| {
            let (source, last) = (&runs[0], &runs[runs.len() - 1]);
            let mut arguments = source.trace.iter().flat_map(|call| &call.arguments);
            compared += 1;
            shorter += usize::from(last.trace.len() < source.trace.len());
            in_inputs += usize::from(inputs.iter().any(has_unit));
            in_arguments += usize::from(arguments.any(has_unit));
            in_answers += usize::from(has_unit(&source.answer));
        });
    });
    assert!(compared > 2500 && shorter > 200, "{compared}, {shorter}");
    assert!(in_inputs > 500, "{in_inputs} with units in inputs");
    assert!(in_arguments > 300, "{in_arguments} in arguments");
    assert!(in_answers > 500, "{in_answers} in answers");
}

#[test]
fn the_unit_type_has_no_function_in_it() {
    let tables = small_units()[0].sample.examine().expect("a unit").tables;
    for without in [U, B_OR_U, B_AND_U, U_AND_U, U_OR_U] {
        assert!(!has_function(&tables, without as u32));
    }
    assert!(has_function(&tables, U_TO_B as u32) && has_function(&tables, B_TO_U as u32));
}

/// The answer of a run, and the argument values of its calls, one after another. The term is kept for
/// good, as a value may point into it.
fn ran(
    inputs: &[u64],
    values: &[Value<'static>],
    term: Phrase,
) -> (Value<'static>, Vec<Value<'static>>) {
    let Sample { types, calls, .. } = sample(inputs, term.clone());
    let tables = Tables::from_words(&types, &calls, inputs).expect("the tables can be read");
    let term = sample(inputs, term)
        .examine()
        .expect("a well-typed term")
        .term;
    let term: &'static Term = Box::leak(Box::new(term));
    let run = run(term, values, &FixedAnswers { tables: &tables }, FUEL).expect("a short run");
    let arguments = run.trace.into_iter().flat_map(|call| call.arguments);
    (run.answer, arguments.collect())
}

#[test]
fn a_unit_gives_the_only_value_of_its_type() {
    assert_eq!(ran(&[], &[], u()), (Value::Unit, vec![]));
    assert_eq!(
        ran(&[U], &[Value::Unit], variable(0)),
        (Value::Unit, vec![])
    );
    assert_eq!(ran(&[], &[], call(GIVE, &[])), (Value::Unit, vec![]));
    // Given, bound, an input or written: the same argument, and the same answer.
    let (answer, arguments) = ran(&[], &[], call(TAKE, &[&u()]));
    assert_eq!(arguments, [Value::Unit]);
    for term in [
        call(TAKE, &[&call(GIVE, &[])]),
        call(TAKE, &[&variable(0)]),
        let_in(&u(), &call(TAKE, &[&variable(0)])),
        apply(&function(U_TO_B, &call(TAKE, &[&variable(0)])), &u()),
        call(TAKE, &[&second(&pair(U_AND_U, &variable(0), &u()))]),
    ] {
        assert_eq!(
            ran(&[U], &[Value::Unit], term),
            (answer.clone(), vec![Value::Unit])
        );
    }
}

#[test]
fn a_unit_is_no_number_and_no_pair() {
    let others = [Value::Number(0), Value::Number(3)];
    assert!(others.iter().all(|other| *other != Value::Unit));
    let pair = ran(&[], &[], pair(U_AND_U, &u(), &u())).0;
    assert_ne!(pair, Value::Unit);
    let left = ran(&[], &[], left(U_OR_U, &u())).0;
    let right = ran(&[], &[], right(U_OR_U, &u())).0;
    assert!(left != right && has_unit(&left) && has_unit(&right));
}
