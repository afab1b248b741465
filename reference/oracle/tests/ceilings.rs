//! Ceilings on small terms: where they are met, found by hand.

mod lent;

use lent::outcome;
use oracle::api::Answer;
use oracle::reduction::Counts;
use oracle::rules::{Rule, RULES};
use oracle::settings::Settings;
use tools::generate::acting::{c, d};
use tools::generate::ceiling_shapes::*;
use tools::generate::ceilings::only_ceiling;
use tools::generate::limits::Limits;
use tools::generate::phrases::*;
use tools::generate::shapes::{sample, B_OR_B, B_TO_B, D};
use tools::generate::steps::{steps_of, Steps};
use tools::generate::Sample;

fn steps(sample: &Sample) -> Steps {
    steps_of(sample, 100).expect("the walk is short")
}

/// The refusal and the counts in buffers of this length.
fn refusal(sample: &Sample, settings: Settings, capacity: usize) -> (u32, Counts) {
    let lengths = [capacity; 3];
    let (answer, _): (Answer, _) = outcome(sample, Limits { settings, lengths });
    (answer.refusal, answer.counts)
}

/// One use of each of these rules.
fn uses(rules: &[Rule]) -> Counts {
    let mut counts = [0; 10];
    for &rule in rules {
        counts[rule as usize] += 1;
    }
    counts
}

#[test]
fn the_refusal_has_its_number() {
    assert_eq!(oracle::checks::Refusal::Ceiling.number(), 13);
}

#[test]
fn one_step_of_each_rule() {
    let (rules, _): (Vec<Rule>, Vec<Sample>) = one_step_terms().into_iter().unzip();
    assert_eq!(rules, RULES);
    for (rule, sample) in one_step_terms() {
        assert_eq!(steps(&sample).rules, [rule]);
        let capacity = steps(&sample).longest();
        let mut this_only = Settings {
            budget: 1,
            ceilings: [0; 10],
        };
        this_only.ceilings[rule as usize] = 1;
        let found = refusal(&sample, this_only, capacity);
        assert_eq!(found, (0, uses(&[rule])), "{rule:?}");
        for budget in [1, 2, u32::MAX] {
            let found = refusal(&sample, only_ceiling(budget, rule, 0), capacity);
            assert_eq!(found, (13, [0; 10]), "{rule:?}");
        }
        for other in RULES.into_iter().filter(|&other| other != rule) {
            let found = refusal(&sample, only_ceiling(1, other, 0), capacity);
            assert_eq!(found, (0, uses(&[rule])), "{rule:?} and {other:?}");
        }
    }
}

#[test]
fn each_rule_is_met_at_another_step() {
    let sample = each_rule_once();
    let steps = steps(&sample);
    assert_eq!(steps.rules, ORDER_OF_USE);
    let capacity = steps.longest();
    let once = Settings {
        budget: 10,
        ceilings: [1; 10],
    };
    assert_eq!(refusal(&sample, once, capacity), (0, [1; 10]));
    for (step, &rule) in ORDER_OF_USE.iter().enumerate() {
        let before = uses(&ORDER_OF_USE[..step]);
        let mut settings = once;
        settings.ceilings[rule as usize] = 0;
        assert_eq!(refusal(&sample, settings, capacity), (13, before));
        // At the same step the budget comes first, and one step later it comes too late.
        settings.budget = step as u32;
        assert_eq!(refusal(&sample, settings, capacity), (10, before));
        settings.budget = step as u32 + 1;
        assert_eq!(refusal(&sample, settings, capacity), (13, before));
    }
}

/// The paper's case A: `(λ. d v0) c`, which takes a let and an apply, the first to seven words.
fn case_a() -> Sample {
    sample(&[], apply(&function(B_TO_B, &d(0)), &c()))
}

#[test]
fn case_a_under_ceilings() {
    let a = case_a();
    let let_met = only_ceiling(2, Rule::LetInsertion, 0);
    let apply_met = only_ceiling(2, Rule::Apply, 0);
    assert_eq!(refusal(&a, let_met, 7), (13, [0; 10]));
    assert_eq!(refusal(&a, apply_met, 7), (13, uses(&[Rule::LetInsertion])));
    // The input's length comes first, the next term's last.
    assert_eq!(refusal(&a, let_met, 6), (13, [0; 10]));
    assert_eq!(refusal(&a, let_met, 5), (13, [0; 10]));
    assert_eq!(refusal(&a, let_met, 4), (11, [0; 10]));
    assert_eq!(refusal(&a, apply_met, 6), (11, [0; 10]));
    let spent = Settings {
        budget: 0,
        ..let_met
    };
    assert_eq!(refusal(&a, spent, 6), (10, [0; 10]));
    let spent = Settings {
        budget: 1,
        ..apply_met
    };
    assert_eq!(refusal(&a, spent, 7), (10, uses(&[Rule::LetInsertion])));
}

#[test]
fn a_rule_that_is_used_more_than_once() {
    // The paper's case G: let, let, let of let.
    let g = sample(&[], call(D, &[&call(D, &[&c()])]));
    for (ceiling, taken) in [(0, 0), (1, 1)] {
        let settings = only_ceiling(3, Rule::LetInsertion, ceiling);
        let expected = uses(&[Rule::LetInsertion].repeat(taken));
        assert_eq!(refusal(&g, settings, 9), (13, expected));
    }
    let settings = only_ceiling(3, Rule::LetInsertion, 2);
    assert_eq!(refusal(&g, settings, 9).0, 0);

    // The paper's case F: let of case, let value, let value.
    let bound = case(&variable(0), &variable(0), &variable(0));
    let f = sample(&[B_OR_B], let_in(&bound, &d(0)));
    let expected = uses(&[Rule::LetOfCase, Rule::LetValue]);
    let settings = only_ceiling(3, Rule::LetValue, 1);
    assert_eq!(refusal(&f, settings, 10), (13, expected));
    let settings = only_ceiling(3, Rule::LetOfCase, 1);
    assert_eq!(refusal(&f, settings, 10).0, 0);
}

#[test]
fn the_largest_ceilings_are_never_met() {
    for sample in [case_a(), each_rule_once(), nested_firsts(5)] {
        let steps = steps(&sample);
        for ceiling in [u32::MAX - 1, u32::MAX] {
            let settings = Settings {
                budget: u32::MAX,
                ceilings: [ceiling; 10],
            };
            let found = refusal(&sample, settings, steps.longest());
            assert_eq!(found, (0, steps.counts()));
        }
    }
}
