//! Raising the budget or a ceiling keeps every accepted outcome: the answer and all words of the buffers.

mod lent;

use lent::outcome;
use oracle::rules::RULES;
use oracle::settings::Settings;
use tools::generate::ceiling_shapes::*;
use tools::generate::ceilings::near_ceilings;
use tools::generate::each::{all_sorts, each_sample};
use tools::generate::limits::Limits;
use tools::generate::steps::steps_of;
use tools::generate::Sample;
use tools::random::Random;

/// Walks of more steps are left out.
const MOST_STEPS: u32 = 300;
/// The budget and the ten ceilings.
const NUMBERS: usize = 11;

/// The number at this place, the budget's being 0.
fn number_mut(settings: &mut Settings, place: usize) -> &mut u32 {
    match place {
        0 => &mut settings.budget,
        _ => &mut settings.ceilings[place - 1],
    }
}

/// The settings with one number raised: by one, by some, and as far as it goes.
fn raised_at(random: &mut Random, settings: Settings, place: usize) -> [Settings; 3] {
    let some = random.between(2, 1000) as u32;
    [1, some, u32::MAX].map(|more| {
        let mut raised = settings;
        let number = number_mut(&mut raised, place);
        *number = number.saturating_add(more);
        raised
    })
}

/// The settings with some numbers raised, about half of them.
fn raised_at_random(random: &mut Random, settings: Settings) -> Settings {
    let mut raised = settings;
    for place in 0..NUMBERS {
        if random.chance(50) {
            let number = number_mut(&mut raised, place);
            *number = number.saturating_add(random.below(9) as u32);
        }
    }
    raised
}

/// Checks all bounds near what the walk needs; answers how many were accepted.
fn check_raised(random: &mut Random, sample: &Sample) -> usize {
    let Some(steps) = steps_of(sample, MOST_STEPS) else {
        return 0;
    };
    let mut accepted = 0;
    for bounds in near_ceilings(random, &steps) {
        let limits = bounds.limits(random);
        let before = outcome(sample, limits);
        if before.0.refusal != 0 {
            continue;
        }
        accepted += 1;
        let places = (0..NUMBERS).flat_map(|place| raised_at(random, limits.settings, place));
        let mut all: Vec<Settings> = places.collect();
        all.push(raised_at_random(random, limits.settings));
        all.push(Settings::no_ceilings(u32::MAX));
        for settings in all {
            let after = outcome(sample, Limits { settings, ..limits });
            assert_eq!(after, before, "{}, {settings:?}", bounds.name);
        }
    }
    accepted
}

#[test]
fn accepted_outcomes_stay() {
    let mut accepted = 0;
    for (make, seed) in all_sorts(181) {
        each_sample(make, seed, 250, 40, |random, sample| {
            accepted += check_raised(random, &sample);
        });
    }
    assert!(accepted > 2500, "{accepted} accepted");
    let mut random = Random::new(184);
    let terms = one_step_terms().map(|(_, sample)| sample);
    for sample in terms.iter().chain(&[each_rule_once(), nested_firsts(4)]) {
        assert!(check_raised(&mut random, sample) > 3);
    }
}

/// The walk goes on if the ceiling that it met is raised by one, unless the same step has no space; the
/// steps before are the same.
#[test]
fn a_raised_ceiling_lets_the_walk_go_on() {
    let (mut longer, mut no_space) = (0, 0);
    for (make, seed) in all_sorts(185) {
        each_sample(make, seed, 500, 40, |random, sample| {
            let Some(steps) = steps_of(&sample, MOST_STEPS) else {
                return;
            };
            for bounds in near_ceilings(random, &steps) {
                let mut limits = bounds.limits(random);
                let (before, _) = outcome(&sample, limits);
                if before.refusal != 13 {
                    continue;
                }
                let taken: u32 = before.counts.iter().sum();
                let rule = steps.rules[taken as usize] as usize;
                limits.settings.ceilings[rule] += 1;
                let (after, _) = outcome(&sample, limits);
                if after.counts == before.counts {
                    assert_eq!(after.refusal, 11, "{}", bounds.name);
                    no_space += 1;
                } else {
                    assert!(after.counts[rule] > before.counts[rule]);
                    let mut counts = RULES.iter().map(|&rule| rule as usize);
                    assert!(counts.all(|rule| after.counts[rule] >= before.counts[rule]));
                    longer += 1;
                }
            }
        });
    }
    assert!(longer > 3000 && no_space > 300, "{longer}, {no_space}");
}
