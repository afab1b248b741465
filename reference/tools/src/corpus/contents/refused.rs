//! Refused samples: each reason of the refusals 1 to 9, alone and with a second one, and of 12.

use super::Contents;
use crate::generate::bundles::BUNDLE_DAMAGES;
use crate::generate::damage::{apply_damages, Damage, DAMAGES};
use crate::generate::ill_typed::broken_samples;
use crate::generate::limits::Limits;

impl Contents {
    pub fn refused(&mut self) {
        let small: Vec<&Damage> = DAMAGES.iter().filter(|damage| damage.is_small).collect();
        for &damage in &small {
            for _ in 0..8 {
                self.damaged(&[damage]);
            }
        }
        for _ in 0..100 {
            let one = *self.random.pick(&small);
            let other = *self.random.pick(&small);
            if one.refusal != other.refusal {
                self.damaged(&[one, other]);
            }
        }
        for sample in broken_samples() {
            self.all_calls(&sample, Limits::OF_PROGRAM);
        }
        self.damaged_bundles();
    }

    /// A sample with these faults; what is lent may be too little as well.
    fn damaged(&mut self, damages: &[&Damage]) {
        let (mut sample, _) = self.sample(20);
        apply_damages(&mut self.random, &mut sample, damages);
        let budget = self.random.below(3) as u32;
        let capacity = self.random.below(60);
        let limits = Limits::with_capacity(&mut self.random, budget, capacity);
        self.all_calls(&sample, limits);
    }

    fn damaged_bundles(&mut self) {
        for damage in BUNDLE_DAMAGES.iter().filter(|damage| damage.is_small) {
            for _ in 0..20 {
                let (sample, _) = self.sample(20);
                let mut bundle = sample.bundle();
                (damage.apply)(&mut self.random, &mut bundle);
                self.respond(bundle);
            }
        }
    }
}
