//! The settings of a walk: how many steps it may take in all, and how many by each rule.

use crate::reduction::Counts;
use crate::rules::Rule;

/// A budget of steps and the ceilings of the ten rules, in the order of their counts.
#[derive(Clone, Copy, Debug, PartialEq, Eq)]
pub struct Settings {
    pub budget: u32,
    pub ceilings: [u32; 10],
}

impl Settings {
    /// This budget, and ceilings that no walk meets before it has spent the budget.
    pub const fn no_ceilings(budget: u32) -> Settings {
        Settings {
            budget,
            ceilings: [u32::MAX; 10],
        }
    }

    /// Whether no rule has a ceiling below the largest number there is.
    pub fn has_no_ceilings(&self) -> bool {
        self.ceilings == [u32::MAX; 10]
    }

    /// Whether the rule has been used as often as its ceiling says.
    pub fn ceiling_is_met(&self, rule: Rule, counts: &Counts) -> bool {
        counts[rule as usize] >= self.ceilings[rule as usize]
    }
}
