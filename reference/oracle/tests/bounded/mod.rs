//! Where a walk's steps meet the bounds, read off the list of all of them.

use oracle::rules::{Rule, RULES};
use oracle::settings::Settings;
use tools::generate::steps::Steps;

/// The step at which the rule would be used once more than its ceiling allows.
fn ceiling_met_by(steps: &Steps, rule: Rule, ceiling: u32) -> Option<usize> {
    let numbered = steps.rules.iter().enumerate();
    let mut uses = numbered.filter(|(_, &used)| used == rule);
    uses.nth(ceiling as usize).map(|(step, _)| step)
}

/// The refusal, 0 if there is none, and the number of steps taken.
pub fn expected(steps: &Steps, settings: Settings, capacity: usize) -> (u32, usize) {
    if steps.lengths[0] > capacity {
        return (11, 0);
    }
    let all = steps.rules.len();
    let budget = Some(settings.budget as usize).filter(|&budget| budget < all);
    let met = |rule: &Rule| ceiling_met_by(steps, *rule, settings.ceilings[*rule as usize]);
    let ceiling = RULES.iter().filter_map(met).min();
    let capacity = steps.lengths[1..].iter().position(|&l| l > capacity);
    // Of those at the same step the first one counts.
    let met = [(10, budget), (13, ceiling), (11, capacity)];
    let met = met
        .into_iter()
        .filter_map(|(refusal, step)| Some((refusal, step?)));
    met.min_by_key(|&(_, step)| step).unwrap_or((0, all))
}
