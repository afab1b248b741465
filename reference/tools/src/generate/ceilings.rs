//! Settings near what a walk needs: exactly enough uses of each rule, too few of one, and a budget,
//! a ceiling and a capacity that are met at the same step.

use super::limits::Limits;
use super::steps::Steps;
use crate::random::Random;
use oracle::reduction::Counts;
use oracle::rules::{Rule, RULES};
use oracle::settings::Settings;

/// Settings and a capacity, and what is special about them.
#[derive(Clone, Copy, Debug)]
pub struct Bounds {
    pub name: &'static str,
    pub settings: Settings,
    pub capacity: usize,
}

impl Bounds {
    /// With three buffers of which the shortest is the capacity.
    pub fn limits(&self, random: &mut Random) -> Limits {
        Limits::with_settings(random, self.settings, self.capacity)
    }
}

/// This budget, and a ceiling for one rule alone.
pub fn only_ceiling(budget: u32, rule: Rule, ceiling: u32) -> Settings {
    let mut settings = Settings::no_ceilings(budget);
    settings.ceilings[rule as usize] = ceiling;
    settings
}

/// This budget, and a ceiling for one rule alone that the walk meets at this step and not before.
pub fn ceiling_met_at(budget: u32, steps: &Steps, step: usize) -> Settings {
    let rule = steps.rules[step];
    let used = steps.counts_of_first(step)[rule as usize];
    only_ceiling(budget, rule, used)
}

/// Settings and capacities of all sorts near what the walk needs.
pub fn near_ceilings(random: &mut Random, steps: &Steps) -> Vec<Bounds> {
    let mut all = enough(random, steps);
    all.extend(too_small(steps));
    if !steps.rules.is_empty() {
        all.extend(few_uses(random, steps));
        all.extend(met_together(random, steps));
    }
    all.extend((0..3).map(|_| random_bounds(random, steps)));
    all
}

/// With these the walk comes to its end.
pub fn enough(random: &mut Random, steps: &Steps) -> Vec<Bounds> {
    let budget = steps.rules.len() as u32;
    let counts = steps.counts();
    let capacity = steps.longest();
    let bounds = |name, settings| Bounds {
        name,
        settings,
        capacity,
    };
    let exactly = Settings {
        budget,
        ceilings: counts,
    };
    let more = Settings {
        budget: budget + random.below(5) as u32,
        ceilings: counts.map(|count| count + random.below(3) as u32),
    };
    let mut all = vec![
        bounds("exactly enough", exactly),
        bounds("more than enough", more),
        bounds("no ceilings", Settings::no_ceilings(budget)),
    ];
    if let Some(rule) = one_of(random, |rule| counts[rule as usize] == 0) {
        let settings = only_ceiling(budget, rule, 0);
        all.push(bounds("zero for a rule that is not used", settings));
    }
    // If there is another rule than the last step's, its ceiling is met before the walk ends.
    let last = steps.rules.last();
    if let Some(rule) = one_of(random, |r| counts[r as usize] > 0 && Some(&r) != last) {
        let settings = only_ceiling(budget, rule, counts[rule as usize]);
        all.push(bounds("met by a rule that is never next again", settings));
    }
    all
}

/// With ceilings that suffice, and a budget or a capacity that does not; and with a capacity below the
/// input's own length, and nothing else allowed either.
pub fn too_small(steps: &Steps) -> Vec<Bounds> {
    let needed = steps.rules.len() as u32;
    let with_budget = |budget| Settings {
        budget,
        ceilings: steps.counts(),
    };
    let nothing = Settings {
        budget: 0,
        ceilings: [0; 10],
    };
    let named = [
        (
            "one step less",
            with_budget(needed.saturating_sub(1)),
            steps.longest(),
        ),
        ("one word less", with_budget(needed), steps.longest() - 1),
        ("no space for the input", nothing, steps.lengths[0] - 1),
        ("nothing but space", nothing, steps.longest()),
    ];
    let bounds = named.map(|(name, settings, capacity)| Bounds {
        name,
        settings,
        capacity,
    });
    bounds.to_vec()
}

/// With few uses of some rule or of all, for a walk of at least one step; most of these are too few.
pub fn few_uses(random: &mut Random, steps: &Steps) -> Vec<Bounds> {
    let budget = steps.rules.len() as u32;
    let counts = steps.counts();
    let rule = *random.pick(&steps.rules);
    let last = steps.rules.len() - 1;
    let with_one = |others: Counts, ceiling| {
        let mut ceilings = others;
        ceilings[rule as usize] = ceiling;
        Settings { budget, ceilings }
    };
    let one_less = counts[rule as usize] - 1;
    let named = [
        ("one use less", with_one(counts, one_less)),
        ("one use less, alone", with_one([u32::MAX; 10], one_less)),
        ("zero for one rule", with_one(counts, 0)),
        ("one rule only", with_one([0; 10], u32::MAX)),
        ("one use of each rule", with_one([1; 10], 1)),
        ("met at the last step", ceiling_met_at(budget, steps, last)),
        ("no use of any rule", with_one([0; 10], 0)),
    ];
    let capacity = steps.longest();
    let bounds = named.map(|(name, settings)| Bounds {
        name,
        settings,
        capacity,
    });
    bounds.to_vec()
}

/// With a budget, a ceiling and a capacity that are met at one step, or at two that follow each other,
/// for a walk of at least one step.
pub fn met_together(random: &mut Random, steps: &Steps) -> Vec<Bounds> {
    let step = random.below(steps.rules.len());
    let at = |budget| ceiling_met_at(budget, steps, step);
    let before = step as u32;
    let capacity = steps.longest();
    let bounds = |name, settings, capacity| Bounds {
        name,
        settings,
        capacity,
    };
    let mut all = vec![
        bounds("budget and ceiling", at(before), capacity),
        bounds("a ceiling before the budget", at(before + 1), capacity),
    ];
    if step > 0 {
        all.push(bounds(
            "the budget before a ceiling",
            at(before - 1),
            capacity,
        ));
    }
    let growing = |&step: &usize| steps.capacity_met_at(step).is_some();
    let growing: Vec<usize> = (0..steps.rules.len()).filter(growing).collect();
    if growing.is_empty() {
        return all;
    }
    let step = *random.pick(&growing);
    let capacity = steps.capacity_met_at(step).expect("the step grows");
    let before = step as u32;
    let at = |budget| ceiling_met_at(budget, steps, step);
    all.push(bounds("ceiling and capacity", at(before + 1), capacity));
    all.push(bounds("all three", at(before), capacity));
    let later = random.between(step, steps.rules.len() - 1);
    let settings = ceiling_met_at(u32::MAX, steps, later);
    all.push(bounds(
        "a ceiling not before the capacity",
        settings,
        capacity,
    ));
    all
}

/// Random numbers, each up to a little more than the walk needs; some rules have no ceiling.
fn random_bounds(random: &mut Random, steps: &Steps) -> Bounds {
    let ceilings = steps.counts().map(|count| match random.below(3) {
        0 => u32::MAX,
        1 => count,
        _ => random.between(0, count as usize + 1) as u32,
    });
    let needed = steps.rules.len();
    let few = random.between(0, needed + 1) as u32;
    let budget = *random.pick(&[u32::MAX, needed as u32, few]);
    let short = random.between(0, steps.longest() + 1);
    let capacity = *random.pick(&[steps.longest(), steps.longest(), short]);
    Bounds {
        name: "random",
        settings: Settings { budget, ceilings },
        capacity,
    }
}

/// One of the wanted rules, if there is any.
fn one_of(random: &mut Random, wanted: impl Fn(Rule) -> bool) -> Option<Rule> {
    let rules: Vec<Rule> = RULES.into_iter().filter(|&rule| wanted(rule)).collect();
    (!rules.is_empty()).then(|| *random.pick(&rules))
}
