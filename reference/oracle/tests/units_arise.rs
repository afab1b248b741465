//! Units arise from units alone: no step puts one into a term that has none.

use oracle::reduction::sequence;
use oracle::rules::Rule;
use oracle::term::Term;
use tools::generate::each::{each_random_sample, each_unit_sample};
use tools::generate::Sample;

const MOST_WORDS: usize = 30_000;

fn units(term: &Term) -> usize {
    let is_unit = |node: &&&Term| matches!(node, Term::Unit(_));
    term.nodes().iter().filter(is_unit).count()
}

/// The steps of the walk of a term without units, on which there is no unit either; none if the
/// term has units or its walk is too long.
fn steps_without_units(sample: &Sample) -> usize {
    let checked = sample.examine().expect("generated samples are well typed");
    if units(&checked.term) > 0 {
        return 0;
    }
    let Some(listed) = sequence(&checked.tables, &checked.term, MOST_WORDS) else {
        return 0;
    };
    assert!(listed.terms.iter().all(|term| units(term) == 0));
    listed.rules.len()
}

#[test]
fn terms_over_tables_without_units_have_none_on_their_walks() {
    let mut steps = 0;
    each_random_sample(71, 1500, 60, |_, sample| {
        steps += steps_without_units(&sample);
    });
    assert!(steps > 10_000, "{steps} steps");
}

#[test]
fn terms_without_units_have_none_on_their_walks() {
    let mut steps = 0;
    each_unit_sample(72, 4000, 40, |_, sample| {
        steps += steps_without_units(&sample);
    });
    assert!(steps > 3000, "{steps} steps");
}

#[test]
fn only_rules_that_copy_add_units() {
    let (mut added, mut lost) = (0, 0);
    each_unit_sample(73, 1500, 60, |_, sample| {
        let checked = sample.examine().expect("generated samples are well typed");
        let Some(listed) = sequence(&checked.tables, &checked.term, MOST_WORDS) else {
            return;
        };
        for (pair, rule) in listed.terms.windows(2).zip(&listed.rules) {
            let (before, after) = (units(&pair[0]), units(&pair[1]));
            match rule {
                Rule::LetInsertion | Rule::LetOfLet => assert_eq!(after, before),
                Rule::First | Rule::Second | Rule::Drop => assert!(after <= before),
                Rule::LetOfCase => assert!((before..=2 * before).contains(&after)),
                Rule::Apply | Rule::LeftCase | Rule::RightCase | Rule::LetValue => {}
            }
            added += after.saturating_sub(before);
            lost += before.saturating_sub(after);
        }
    });
    assert!(added > 300 && lost > 1000, "{added} and {lost}");
}
