//! Samples with units: accepted ones, buffers that just suffice and that do not, each refusal, and
//! terms at their limits.

use super::{Contents, LONGEST_BUFFER};
use crate::generate::later_examples::plate;
use crate::generate::limits::Limits;
use crate::generate::terms::random_sample;
use crate::generate::unit_damage::{broken_unit_samples, UNIT_DAMAGES};
use crate::generate::unit_shapes::*;
use crate::generate::units::small_units;
use crate::generate::{Profile, Sample};
use oracle::checks::{LONGEST_TO_EXAMINE, LONGEST_TO_NORMALIZE};
use oracle::words::*;

impl Contents {
    pub fn units(&mut self) {
        self.five_calls(&plate().sample, Limits::OF_PROGRAM);
        for (turn, shape) in small_units().iter().enumerate() {
            if turn % 4 == 1 {
                self.respond(shape.sample.bundle());
            }
            self.near_what_is_needed(turn, &shape.sample);
            self.another_call(turn / 4, &shape.sample);
        }
        for turn in 0..7 {
            let sample = self.unit_sample();
            self.near_what_is_needed(turn, &sample);
            self.another_call(turn, &sample);
        }
        for (turn, shape) in moderate_unit_shapes().iter().enumerate() {
            self.another_call(turn, &shape.sample);
        }
        self.refused_units();
        self.units_at_their_limits();
    }

    /// A random term with units, of 10 to 30 words.
    fn unit_sample(&mut self) -> Sample {
        loop {
            let sample = random_sample(&mut self.random, &Profile::SMALL.with_units());
            if sample.has_unit() && (10..=30).contains(&sample.term.len()) {
                return sample;
            }
        }
    }

    /// Each reason of the refusals that units have, for each call.
    fn refused_units(&mut self) {
        for damage in UNIT_DAMAGES {
            let mut sample = Sample {
                types: vec![pack_type(BASE, 0, 0), pack_type(UNIT_TYPE, 0, 0)],
                calls: vec![],
                inputs: vec![],
                term: vec![pack_term(UNIT, 0, 1)],
            };
            (damage.apply)(&mut self.random, &mut sample);
            let limits = Limits::with_capacity(&mut self.random, 1, 5);
            self.five_calls(&sample, limits);
        }
        for (turn, sample) in broken_unit_samples().iter().step_by(3).enumerate() {
            self.another_call(turn, sample);
        }
    }

    /// Terms as long as they may be, and short ones that become as long as they may, and one longer.
    fn units_at_their_limits(&mut self) {
        let longest = unit_lets((LONGEST_TO_NORMALIZE - 2) / 2);
        self.normalize(&longest, Limits::OF_PROGRAM);
        for (length, injections) in [(8192, 1), (8191, 1), (LONGEST_BUFFER, 2)] {
            let limits = Limits {
                lengths: [length, 8192, LONGEST_BUFFER],
                ..Limits::with_budget(1)
            };
            self.normalize(&copied_units(6, injections), limits);
        }
        self.check(&unit_pairs(LONGEST_TO_EXAMINE.ilog2() as usize - 1));
        self.is_normal(&unit_chain(LONGEST_TO_EXAMINE / 4));
        self.free_inputs_of(&unit_lets((LONGEST_TO_EXAMINE - 2) / 2));
    }
}
