//! A walk is accepted exactly if it stays within the budget, each ceiling and the capacity; otherwise it
//! is refused at the step where its list of steps first meets one of them.

mod bounded;
mod lent;

use bounded::expected;
use lent::outcome;
use oracle::api::Answer;
use oracle::rules::RULES;
use oracle::settings::Settings;
use std::collections::BTreeMap;
use tools::generate::acting::small_acting;
use tools::generate::acting_shapes::moderate_acting_shapes;
use tools::generate::ceiling_shapes::*;
use tools::generate::ceilings::{near_ceilings, Bounds};
use tools::generate::deep::moderate_deep_shapes;
use tools::generate::each::{all_sorts, each_sample};
use tools::generate::limits::Limits;
use tools::generate::shapes::moderate_shapes;
use tools::generate::steps::{steps_of, Steps};
use tools::generate::unit_shapes::moderate_unit_shapes;
use tools::generate::units::small_units;
use tools::generate::Sample;
use tools::random::Random;

/// Walks of more steps are left out.
const MOST_STEPS: u32 = 400;

/// Whether the whole walk stays within the bounds.
fn stays_within(steps: &Steps, settings: Settings, capacity: usize) -> bool {
    let mut uses = steps.counts().into_iter().zip(settings.ceilings);
    steps.rules.len() <= settings.budget as usize
        && uses.all(|(uses, ceiling)| uses <= ceiling)
        && steps.longest() <= capacity
}

/// Asserts that the outcome is what the list of steps says; answers the answer.
fn check(random: &mut Random, sample: &Sample, steps: &Steps, bounds: &Bounds) -> Answer {
    let Bounds {
        name,
        settings,
        capacity,
    } = *bounds;
    let (answer, [output, first, second]) = outcome(sample, bounds.limits(random));
    let (refusal, taken) = expected(steps, settings, capacity);
    assert_eq!(answer.refusal, refusal, "{name}");
    assert_eq!(answer.counts, steps.counts_of_first(taken), "{name}");
    if refusal != 0 {
        assert_eq!((answer.type_number, answer.length), (0, 0), "{name}");
    } else {
        assert_eq!(answer.type_number, sample.check().type_number, "{name}");
        assert_eq!(Some(&answer.length), steps.lengths.last(), "{name}");
        let (_, [unbounded, ..]) = outcome(sample, Limits::with_budget(u32::MAX));
        let normal_form = &unbounded[..answer.length];
        assert_eq!(&output[..answer.length], normal_form, "{name}");
    }
    assert!(output[answer.length..].iter().all(|&word| word == 9));
    assert!(first.iter().chain(&second).all(|&word| word == 0));
    let within = stays_within(steps, settings, capacity);
    assert_eq!(refusal == 0, within, "{name}");
    answer
}

/// How often each refusal fell, how often 13 fell for each rule, and the refusals of each sort of bounds.
#[derive(Default)]
struct Met {
    refusals: BTreeMap<u32, usize>,
    by_rule: [usize; 10],
    by_name: BTreeMap<&'static str, BTreeMap<u32, usize>>,
}

impl Met {
    /// Checks the sample with all bounds near what its walk needs, if that is not long.
    fn check_near(&mut self, random: &mut Random, sample: &Sample) {
        let Some(steps) = steps_of(sample, MOST_STEPS) else {
            return;
        };
        for bounds in near_ceilings(random, &steps) {
            let answer = check(random, sample, &steps, &bounds);
            *self.refusals.entry(answer.refusal).or_default() += 1;
            let of_name = self.by_name.entry(bounds.name).or_default();
            *of_name.entry(answer.refusal).or_default() += 1;
            if answer.refusal == 13 {
                let taken: u32 = answer.counts.iter().sum();
                let rule = steps.rules[taken as usize] as usize;
                assert_eq!(answer.counts[rule], bounds.settings.ceilings[rule]);
                self.by_rule[rule] += 1;
            }
        }
    }

    /// The refusals that bounds of this name gave.
    fn refusals_of(&self, name: &str) -> Vec<u32> {
        self.by_name[name].keys().copied().collect()
    }
}

#[test]
fn random_terms() {
    let mut met = Met::default();
    for (make, seed) in all_sorts(171) {
        each_sample(make, seed, 1200, 50, |random, sample| {
            met.check_near(random, &sample);
        });
    }
    for refusal in [0, 10, 11, 13] {
        assert!(met.refusals[&refusal] > 3000, "{:?}", met.refusals);
    }
    assert!(met.by_rule.iter().all(|&n| n > 100), "{:?}", met.by_rule);
    for (name, refusals) in [
        ("exactly enough", &[0][..]),
        ("more than enough", &[0]),
        ("no ceilings", &[0]),
        ("zero for a rule that is not used", &[0]),
        ("met by a rule that is never next again", &[0]),
        ("one use less", &[13]),
        ("one use less, alone", &[13]),
        ("zero for one rule", &[13]),
        ("met at the last step", &[13]),
        ("no use of any rule", &[13]),
        ("one rule only", &[0, 13]),
        ("one use of each rule", &[0, 13]),
        ("one word less", &[11]),
        ("no space for the input", &[11]),
        ("nothing but space", &[0, 10]),
        ("one step less", &[0, 10]),
        ("budget and ceiling", &[10]),
        ("a ceiling before the budget", &[13]),
        ("the budget before a ceiling", &[10]),
        ("ceiling and capacity", &[13]),
        ("all three", &[10]),
        ("a ceiling not before the capacity", &[11, 13]),
        ("random", &[0, 10, 11, 13]),
    ] {
        assert_eq!(met.refusals_of(name), refusals, "{name}");
    }
    assert_eq!(met.by_name.len(), 23);
}

#[test]
fn named_terms() {
    let mut met = Met::default();
    let mut random = Random::new(174);
    let named = small_units().into_iter().chain(small_acting());
    let moderate = moderate_shapes().into_iter().chain(moderate_deep_shapes());
    let named = named.chain(moderate).chain(moderate_unit_shapes());
    for shape in named.chain(moderate_acting_shapes()) {
        met.check_near(&mut random, &shape.sample);
    }
    let terms = one_step_terms().map(|(_, sample)| sample);
    for sample in terms.iter().chain(&[each_rule_once(), nested_firsts(6)]) {
        met.check_near(&mut random, sample);
    }
    for refusal in [0, 10, 11, 13] {
        assert!(met.refusals[&refusal] > 100, "{:?}", met.refusals);
    }
    for rule in RULES {
        assert!(met.by_rule[rule as usize] > 5, "{rule:?}");
    }
}
