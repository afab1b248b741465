//! What drop takes away and what stays, over tables with calls that act and without.

use oracle::checks::Checked;
use oracle::dropping::may_be_dropped;
use oracle::reduction::sequence;
use oracle::rules::{rule_at, Phase, Rule};
use oracle::search::first_redex;
use oracle::substitution::occurrences;
use oracle::tables::Tables;
use oracle::term::Term;
use tools::generate::acting::{self, BEGIN, CHOOSE, MERGE, STAMP, STORE};
use tools::generate::each::each_acting_sample;
use tools::generate::phrases::variable;
use tools::generate::shapes::{self, B, B_AND_B, C, D};
use tools::generate::Sample;

const MOST_WORDS: usize = 30_000;

fn tables_of(sample: Sample) -> Tables {
    let checked = sample.examine();
    checked.expect("a well-typed term").tables
}

fn variable_node() -> Box<Term> {
    Box::new(Term::Variable(0))
}

fn call(number: u64) -> Term {
    Term::Call(number as u32, Vec::new())
}

#[test]
fn the_call_table_decides() {
    let with = tables_of(acting::sample(&[B], variable(0)));
    let without = tables_of(shapes::sample(&[B], variable(0)));
    assert!(with.has_acting_call() && !without.has_acting_call());

    let application = Term::Application(variable_node(), variable_node());
    assert!(!may_be_dropped(&with, &application));
    assert!(may_be_dropped(&without, &application));
    for acting in [BEGIN, STAMP, STORE, MERGE, CHOOSE] {
        assert!(!may_be_dropped(&with, &call(acting)));
    }
    for tables in [&with, &without] {
        let bound_let = Term::Let(Box::new(call(C)), Box::new(call(C)));
        let dropped = [
            call(C),
            call(D),
            Term::First(variable_node()),
            Term::Second(variable_node()),
            bound_let,
            Term::Case(variable_node(), Box::new(call(C)), Box::new(call(C))),
        ];
        for bound in dropped {
            assert!(may_be_dropped(tables, &bound), "{bound:?}");
        }
        let pair = Term::Pair(B_AND_B as u32, variable_node(), variable_node());
        for value in [Term::Variable(0), pair] {
            assert!(!may_be_dropped(tables, &value), "{value:?}");
        }
    }
}

#[test]
fn a_used_variable_is_never_dropped() {
    let (with, without) = (
        tables_of(acting::sample(&[B], variable(0))),
        tables_of(shapes::sample(&[B], variable(0))),
    );
    for tables in [&with, &without] {
        let used = Term::Let(Box::new(call(C)), variable_node());
        assert_eq!(rule_at(tables, &used, Phase::Removal), None);
        let unused = Term::Let(Box::new(call(C)), Box::new(call(C)));
        assert_eq!(rule_at(tables, &unused, Phase::Removal), Some(Rule::Drop));
    }
}

/// The bound parts of the lets whose variables are not used.
fn unused_bounds(term: &Term) -> Vec<&Term> {
    let lets = term.nodes().into_iter().filter_map(|node| match node {
        Term::Let(bound, body) if occurrences(body, 0) == 0 => Some(&**bound),
        _ => None,
    });
    lets.collect()
}

/// How often drop took away each kind of computation, and how often each stayed unused.
#[derive(Debug, Default)]
struct Figures {
    plain_calls: [usize; 2],
    acting_calls: [usize; 2],
    halves: [usize; 2],
    applications_with: [usize; 2],
    applications_without: [usize; 2],
}

impl Figures {
    /// Counts a computation as dropped, 0, or as one that stayed, 1.
    fn count(&mut self, tables: &Tables, bound: &Term, stayed: usize) {
        let figure = match bound {
            Term::Call(number, _) if tables.signature_at(*number).acts => &mut self.acting_calls,
            Term::Call(..) => &mut self.plain_calls,
            Term::First(_) | Term::Second(_) => &mut self.halves,
            Term::Application(..) if tables.has_acting_call() => &mut self.applications_with,
            Term::Application(..) => &mut self.applications_without,
            other => panic!("{other:?} in phase 3"),
        };
        figure[stayed] += 1;
    }
}

#[test]
fn acting_calls_stay_and_other_calls_go() {
    let mut figures = Figures::default();
    each_acting_sample(111, 6000, 50, |_, sample| {
        let Checked { tables, term, .. } =
            sample.examine().expect("generated samples are well typed");
        let Some(listed) = sequence(&tables, &term, MOST_WORDS) else {
            return;
        };
        for term in &listed.terms[listed.removal_start()..listed.rules.len()] {
            let redex = first_redex(&tables, term, Phase::Removal).expect("a drop follows");
            let Term::Let(bound, _) = term.nodes()[redex.index] else {
                panic!("drop fits lets alone");
            };
            figures.count(&tables, bound, 0);
        }
        for bound in unused_bounds(&listed.terms[listed.rules.len()]) {
            figures.count(&tables, bound, 1);
        }
    });
    println!("{figures:?}");
    let Figures {
        plain_calls,
        acting_calls,
        halves,
        applications_with,
        applications_without,
    } = figures;
    assert!(plain_calls[0] > 1000 && plain_calls[1] == 0, "{figures:?}");
    assert!(acting_calls[0] == 0 && acting_calls[1] > 1000);
    assert!(halves[0] > 300 && halves[1] == 0, "{figures:?}");
    assert!(applications_with[0] == 0 && applications_with[1] > 300);
    assert!(applications_without[0] > 100 && applications_without[1] == 0);
}
