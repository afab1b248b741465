//! Ceilings: met by each rule, at the first step, at a later one and at the last, alone and together
//! with the budget or the capacity; not met; their boundary values; and the refusals that come first.

use super::{Contents, LONGEST_BUFFER, MOST_STEPS};
use crate::generate::acting::small_acting;
use crate::generate::acting_shapes::{acting_helpers, acting_lets};
use crate::generate::boundaries::{nested_calls, unused_lets, with_inputs};
use crate::generate::ceiling_shapes::*;
use crate::generate::ceilings::*;
use crate::generate::damage::{apply_damages, damages};
use crate::generate::deep::{applied_functions, nested_injections, nested_subjects};
use crate::generate::limits::Limits;
use crate::generate::shapes::doubling;
use crate::generate::steps::{steps_of, Steps};
use crate::generate::terms::random_sample;
use crate::generate::units::small_units;
use crate::generate::{Profile, Sample};
use oracle::rules::{Rule, RULES};
use oracle::settings::Settings;

const NOTHING: Settings = Settings {
    budget: 0,
    ceilings: [0; 10],
};

impl Contents {
    pub fn ceilings(&mut self) {
        self.one_step_of_each_rule();
        self.all_rules_once();
        self.boundary_values();
        self.random_terms_under_ceilings();
        self.small_terms_under_ceilings();
        self.refused_before_the_walk();
        self.each_buffer_the_shortest_under_ceilings();
        self.deep_terms_under_ceilings();
        self.longest_terms_under_ceilings();
    }

    /// A record with these settings, unless they have no ceilings.
    fn under(&mut self, sample: &Sample, settings: Settings, capacity: usize) {
        if settings.has_no_ceilings() {
            return;
        }
        let limits = Limits::with_settings(&mut self.random, settings, capacity);
        self.normalize(sample, limits);
    }

    fn one_step_of_each_rule(&mut self) {
        for (rule, sample) in one_step_terms() {
            let capacity = steps(&sample).longest();
            let mut this_only = Settings {
                budget: 1,
                ..NOTHING
            };
            this_only.ceilings[rule as usize] = 1;
            self.under(&sample, this_only, capacity);
            self.under(&sample, only_ceiling(u32::MAX, rule, 0), capacity);
            self.under(&sample, NOTHING, capacity);
            // A term that becomes longer meets the ceiling first, any other has no space itself.
            self.under(&sample, only_ceiling(1, rule, 0), capacity - 1);
        }
    }

    /// Each rule's ceiling is met at another step.
    fn all_rules_once(&mut self) {
        let sample = each_rule_once();
        let capacity = steps(&sample).longest();
        for rule in RULES {
            self.under(&sample, only_ceiling(10, rule, 0), capacity);
        }
        for (budget, capacity) in [(10, capacity), (9, capacity), (10, capacity - 1)] {
            let settings = Settings {
                budget,
                ceilings: [1; 10],
            };
            self.under(&sample, settings, capacity);
        }
    }

    fn boundary_values(&mut self) {
        for (sample, rules) in [
            (nested_firsts(4), [Rule::First, Rule::LetInsertion]),
            (doubling(2), [Rule::Apply, Rule::LetValue]),
        ] {
            let steps = steps(&sample);
            let capacity = steps.longest();
            for rule in rules {
                let uses = steps.counts()[rule as usize];
                for ceiling in [0, 1, uses - 1, uses, u32::MAX - 1] {
                    let settings = only_ceiling(u32::MAX, rule, ceiling);
                    self.under(&sample, settings, capacity);
                }
            }
            let budget = steps.rules.len() as u32;
            for ceilings in [[u32::MAX - 1; 10], [1; 10], steps.counts()] {
                self.under(&sample, Settings { budget, ceilings }, capacity);
            }
        }
    }

    /// Random terms under four settings each, by turns with units and with acting calls.
    fn random_terms_under_ceilings(&mut self) {
        for turn in 0..16 {
            let profile = match turn % 3 {
                0 => Profile::SMALL,
                1 => Profile::SMALL.with_units(),
                _ => Profile::SMALL.with_acting_calls(),
            };
            let (sample, steps) = self.walked_sample(&profile);
            let all = near_ceilings(&mut self.random, &steps);
            for place in 0..4 {
                let bounds = all[(turn + place * all.len() / 4) % all.len()];
                self.under(&sample, bounds.settings, bounds.capacity);
            }
            for bounds in met_together(&mut self.random, &steps).iter().skip(3) {
                self.under(&sample, bounds.settings, bounds.capacity);
            }
        }
    }

    /// A term of at most 30 words with three steps or more, and its steps.
    fn walked_sample(&mut self, profile: &Profile) -> (Sample, Steps) {
        loop {
            let sample = random_sample(&mut self.random, profile);
            if let Some(steps) = steps_of(&sample, MOST_STEPS) {
                if steps.rules.len() >= 3 && sample.term.len() <= 30 {
                    return (sample, steps);
                }
            }
        }
    }

    /// Named small terms with units and with acting calls. Normal forms need nothing.
    fn small_terms_under_ceilings(&mut self) {
        let all = small_units().into_iter().chain(small_acting());
        for (turn, shape) in all.enumerate() {
            let steps = steps(&shape.sample);
            if steps.rules.is_empty() {
                if turn % 3 == 0 {
                    self.under(&shape.sample, NOTHING, steps.longest());
                }
                continue;
            }
            let few = few_uses(&mut self.random, &steps);
            let bounds = few[turn % few.len()];
            self.under(&shape.sample, bounds.settings, bounds.capacity);
        }
    }

    /// The refusals 1 to 9, and 11 for the input itself, where no step is allowed.
    fn refused_before_the_walk(&mut self) {
        for number in 1..=9 {
            let all = damages();
            let small = all.into_iter().filter(|damage| damage.is_small);
            let of_number: Vec<_> = small.filter(|damage| damage.refusal == number).collect();
            for _ in 0..2 {
                let damage = *self.random.pick(&of_number);
                let (mut sample, _) = self.walked_sample(&Profile::SMALL);
                apply_damages(&mut self.random, &mut sample, &[damage]);
                let capacity = self.random.below(40);
                self.under(&sample, NOTHING, capacity);
            }
        }
        for sample in [with_inputs(1), nested_calls(5), each_rule_once()] {
            let length = sample.term.len();
            for capacity in [0, length - 1, length, length + 1] {
                self.under(&sample, NOTHING, capacity);
            }
        }
    }

    /// `d (… (d c))` of n words needs 3n - 2 of them for the last of its n - 1 lets.
    fn each_buffer_the_shortest_under_ceilings(&mut self) {
        let sample = nested_calls(30);
        for shortest in 0..3 {
            for (missing, ceiling) in [(0, 29), (0, 28), (1, 29), (1, 28)] {
                let mut lengths = [LONGEST_BUFFER, 200, 150];
                lengths[shortest] = 3 * 30 - 2 - missing;
                let settings = only_ceiling(1000, Rule::LetInsertion, ceiling);
                self.normalize(&sample, Limits { settings, lengths });
            }
        }
    }

    fn deep_terms_under_ceilings(&mut self) {
        for sample in [
            nested_calls(100),
            applied_functions(20),
            nested_subjects(12),
            nested_injections(20),
            acting_helpers(12),
        ] {
            let steps = steps(&sample);
            let middle = steps.rules.len() / 2;
            let last = steps.rules.len() - 1;
            for step in [middle, last] {
                let settings = ceiling_met_at(u32::MAX, &steps, step);
                self.under(&sample, settings, steps.longest());
            }
            let budget = steps.rules.len() as u32;
            let ceilings = steps.counts();
            self.under(&sample, Settings { budget, ceilings }, steps.longest());
        }
    }

    /// Terms as long as they may be, and one that becomes so: its normal form needs one step more.
    fn longest_terms_under_ceilings(&mut self) {
        self.under(&acting_lets(2047), NOTHING, 4096);
        let settings = only_ceiling(1_000_000, Rule::Drop, 2045);
        self.under(&unused_lets(4096), settings, 4096);
        let settings = only_ceiling(1_000_000, Rule::LetOfLet, 2728);
        self.under(&nested_calls(2731), settings, 8192);
    }
}

/// The steps of a sample whose walk is not long.
fn steps(sample: &Sample) -> Steps {
    steps_of(sample, MOST_STEPS).expect("the walk is not long")
}
