//! The steps of a walk: which rule each of them uses, and how long the terms are.

use super::Sample;
use oracle::api::LARGEST_CAPACITY;
use oracle::checks::Checked;
use oracle::deep_stack::with_deep_stack;
use oracle::reduction::{grown, step, Counts};
use oracle::rules::{growth, Rule, PHASES};
use oracle::search::first_redex;

/// The rules of a walk's steps, and the lengths of its terms, of which there is one more.
#[derive(Clone, Debug, PartialEq, Eq)]
pub struct Steps {
    pub rules: Vec<Rule>,
    pub lengths: Vec<usize>,
}

/// The steps of the sample's walk; `None` if it is refused, becomes too long for any capacity, or takes
/// more than `most_steps`.
pub fn steps_of(sample: &Sample, most_steps: u32) -> Option<Steps> {
    with_deep_stack(|| list_steps(sample, most_steps))
}

fn list_steps(sample: &Sample, most_steps: u32) -> Option<Steps> {
    let Checked {
        tables, mut term, ..
    } = sample.examine().ok()?;
    let mut length = term.size();
    let mut steps = Steps {
        rules: Vec::new(),
        lengths: vec![length],
    };
    for phase in PHASES {
        while let Some(redex) = first_redex(&tables, &term, phase) {
            length = grown(length, growth(redex.rule, term.node_mut(redex.index)));
            if length > LARGEST_CAPACITY || steps.rules.len() == most_steps as usize {
                return None;
            }
            step(&mut term, redex);
            steps.rules.push(redex.rule);
            steps.lengths.push(length);
        }
    }
    Some(steps)
}

impl Steps {
    /// The uses of each rule in the first so many steps.
    pub fn counts_of_first(&self, steps: usize) -> Counts {
        let mut counts = [0; 10];
        for &rule in &self.rules[..steps] {
            counts[rule as usize] += 1;
        }
        counts
    }

    /// The uses of each rule.
    pub fn counts(&self) -> Counts {
        self.counts_of_first(self.rules.len())
    }

    /// The length of the longest term.
    pub fn longest(&self) -> usize {
        *self.lengths.iter().max().expect("a walk has a first term")
    }

    /// The largest capacity with which this step has no space, if no earlier term is as long as the one
    /// it leads to.
    pub fn capacity_met_at(&self, step: usize) -> Option<usize> {
        let next = self.lengths[step + 1];
        let is_longest = self.lengths[..=step].iter().all(|&length| length < next);
        is_longest.then_some(next - 1)
    }
}
