//! Both implementations under ceilings.

mod compared;

use compared::agree;
use oracle::rules::RULES;
use oracle::settings::Settings;
use tools::generate::acting::small_acting;
use tools::generate::acting_shapes::{acting_lets, moderate_acting_shapes};
use tools::generate::boundaries::{nested_calls, unused_lets};
use tools::generate::ceiling_shapes::*;
use tools::generate::ceilings::{ceiling_met_at, near_ceilings};
use tools::generate::damage::{apply_damages, damages};
use tools::generate::deep::moderate_deep_shapes;
use tools::generate::each::{all_sorts, each_sample};
use tools::generate::limits::Limits;
use tools::generate::shapes::{moderate_shapes, Shape};
use tools::generate::steps::steps_of;
use tools::generate::unit_shapes::moderate_unit_shapes;
use tools::generate::units::small_units;
use tools::generate::Sample;
use tools::random::Random;

/// How often each refusal fell, and how often 13 fell for each rule.
#[derive(Default)]
struct Met {
    refusals: [usize; 14],
    by_rule: [usize; 10],
}

impl Met {
    /// Asserts that both agree on all bounds near what the walk needs, if that is not long.
    fn agree_near(&mut self, random: &mut Random, sample: &Sample, name: &str) {
        let Some(steps) = steps_of(sample, 1000) else {
            return;
        };
        for bounds in near_ceilings(random, &steps) {
            let limits = bounds.limits(random);
            let answer = agree(sample, limits, &format!("{name}, {}", bounds.name));
            self.refusals[answer.refusal as usize] += 1;
            if answer.refusal == 13 {
                let taken: u32 = answer.counts.iter().sum();
                self.by_rule[steps.rules[taken as usize] as usize] += 1;
            }
        }
    }
}

#[test]
fn random_terms() {
    let mut met = Met::default();
    for (make, seed) in all_sorts(61) {
        each_sample(make, seed, 1200, 60, |random, sample| {
            met.agree_near(random, &sample, "random");
        });
    }
    for refusal in [0, 10, 11, 13] {
        assert!(met.refusals[refusal] > 3000, "{:?}", met.refusals);
    }
    assert!(met.by_rule.iter().all(|&n| n > 100), "{:?}", met.by_rule);
}

#[test]
fn shapes() {
    let mut met = Met::default();
    let mut random = Random::new(64);
    let small = small_units().into_iter().chain(small_acting());
    let moderate = moderate_shapes().into_iter().chain(moderate_deep_shapes());
    let moderate = moderate.chain(moderate_unit_shapes());
    for Shape { name, sample } in small.chain(moderate).chain(moderate_acting_shapes()) {
        met.agree_near(&mut random, &sample, name);
    }
    for (rule, sample) in one_step_terms() {
        met.agree_near(&mut random, &sample, &format!("{rule:?}"));
    }
    for sample in [each_rule_once(), nested_firsts(8)] {
        met.agree_near(&mut random, &sample, "each rule");
    }
    for rule in RULES {
        assert!(met.by_rule[rule as usize] > 5, "{:?}", met.by_rule);
    }
}

#[test]
fn long_terms() {
    for sample in [unused_lets(4096), nested_calls(2731), acting_lets(2047)] {
        let steps = steps_of(&sample, 10_000).expect("the walk is not long");
        let exactly = Settings {
            budget: steps.rules.len() as u32,
            ceilings: steps.counts(),
        };
        let limits = |settings| Limits {
            settings,
            lengths: [9000, 8192, steps.longest()],
        };
        assert_eq!(agree(&sample, limits(exactly), "exactly").refusal, 0);
        if let Some(last) = steps.rules.len().checked_sub(1) {
            for step in [0, 1, last / 2, last] {
                let settings = ceiling_met_at(u32::MAX, &steps, step);
                let answer = agree(&sample, limits(settings), "a step");
                assert_eq!(answer.refusal, 13);
                assert_eq!(answer.counts, steps.counts_of_first(step));
            }
        }
    }
}

#[test]
fn faults() {
    for (make, seed) in all_sorts(65) {
        each_sample(make, seed, 2000, 40, |random, mut sample| {
            let damage = *random.pick(&damages());
            let refusal = apply_damages(random, &mut sample, &[damage]);
            let settings = Settings {
                budget: random.below(3) as u32,
                ceilings: [0; 10].map(|_: u32| random.below(3) as u32),
            };
            let capacity = random.below(60);
            let limits = Limits::with_settings(random, settings, capacity);
            assert_eq!(agree(&sample, limits, damage.name).refusal, refusal);
        });
    }
}
