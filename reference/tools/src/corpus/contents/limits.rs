//! Budgets and capacities: exactly enough, one less, or any less; each buffer may be the shortest.

use super::{Contents, MOST_STEPS};
use crate::generate::boundaries::nested_calls;
use crate::generate::deep::moderate_deep_shapes;
use crate::generate::limits::{needs, Limits, Needs};
use crate::generate::shapes::moderate_shapes;
use crate::generate::Sample;

impl Contents {
    pub fn limits_at_their_edge(&mut self) {
        for _ in 0..120 {
            let (sample, needs) = self.sample(40);
            self.near(&sample, needs);
            let budget = self.random.between(0, needs.steps as usize) as u32;
            let capacity = self.random.between(0, needs.capacity);
            self.normalize_within(&sample, budget, capacity);
            // The input's own length comes first, then the budget, then the next term's length.
            self.normalize_within(&sample, 0, sample.term.len() - 1);
            self.normalize_within(&sample, 0, sample.term.len());
            self.normalize_within(&sample, u32::MAX, sample.term.len());
        }
        for shape in moderate_shapes().into_iter().chain(moderate_deep_shapes()) {
            if let Some(needs) = needs(&shape.sample, MOST_STEPS) {
                self.near(&shape.sample, needs);
            }
        }
        self.each_buffer_the_shortest();
    }

    /// What the walk needs, and one less of either or both.
    fn near(&mut self, sample: &Sample, needs: Needs) {
        let Needs { steps, capacity } = needs;
        self.normalize_within(sample, steps, capacity);
        self.normalize_within(sample, steps.saturating_sub(1), capacity);
        self.normalize_within(sample, steps, capacity - 1);
        self.normalize_within(sample, steps.saturating_sub(1), capacity - 1);
    }

    fn normalize_within(&mut self, sample: &Sample, budget: u32, capacity: usize) {
        let limits = Limits::with_capacity(&mut self.random, budget, capacity);
        self.normalize(sample, limits);
    }

    /// `d (… (d c))` of n words needs 3n - 2.
    fn each_buffer_the_shortest(&mut self) {
        let sample = nested_calls(300);
        for shortest in 0..3 {
            for missing in 0..2 {
                let mut lengths = [8256, 8200, 8192];
                lengths[shortest] = 3 * 300 - 2 - missing;
                let limits = Limits {
                    lengths,
                    ..Limits::with_budget(1000)
                };
                self.normalize(&sample, limits);
            }
        }
    }
}
