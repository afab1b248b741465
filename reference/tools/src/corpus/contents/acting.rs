//! Samples with calls that act: accepted ones, normal forms and terms near them, buffers that just
//! suffice and that do not, each refusal, and terms at their limits.

use super::{Contents, MOST_STEPS};
use crate::generate::acting::{self, begin, small_acting};
use crate::generate::acting_damage::{broken_acting_samples, ACTING_DAMAGES};
use crate::generate::acting_shapes::*;
use crate::generate::damage::{damages, Damage};
use crate::generate::examples::tithe;
use crate::generate::later_examples::stamp;
use crate::generate::limits::{near_needs, Limits};
use crate::generate::phrases::let_in;
use crate::generate::shapes::B;
use crate::generate::terms::random_sample;
use crate::generate::{Profile, Sample};
use oracle::checks::{LONGEST_TO_EXAMINE, LONGEST_TO_NORMALIZE};

impl Contents {
    pub fn acting(&mut self) {
        for example in [tithe(), stamp()] {
            self.five_calls(&example.sample, Limits::OF_PROGRAM);
        }
        for (turn, shape) in small_acting().iter().enumerate() {
            self.is_normal(&shape.sample);
            self.near_what_is_needed(turn, &shape.sample);
            if turn % 4 == 1 {
                self.respond(shape.sample.bundle());
            }
        }
        for turn in 0..12 {
            let sample = self.acting_sample(turn);
            self.near_what_is_needed(turn, &sample);
            self.another_call(turn, &sample);
            if turn % 2 == 1 {
                self.end_of_walk(&sample);
            }
        }
        for (turn, shape) in moderate_acting_shapes().iter().enumerate() {
            self.near_what_is_needed(turn, &shape.sample);
        }
        self.refused_calls();
        self.acting_calls_at_their_limits();
    }

    /// A random term of 8 to 24 words over a table with an acting call, which the term names or, by
    /// turns, does not; by turns with the unit type.
    fn acting_sample(&mut self, turn: usize) -> Sample {
        let small = Profile::SMALL.with_acting_calls();
        let profile = if turn % 3 == 2 {
            small.with_units()
        } else {
            small
        };
        loop {
            let sample = random_sample(&mut self.random, &profile);
            let is_wanted = sample.has_acting_call()
                && sample.names_acting_call() == (turn % 4 != 3)
                && (8..=24).contains(&sample.term.len());
            if is_wanted {
                return sample;
            }
        }
    }

    /// Each reason of the refusals that acting calls have, and one of each other number, for each call.
    fn refused_calls(&mut self) {
        let of_another_number = |number: u32| {
            let mut all = damages().into_iter();
            all.find(|damage| damage.is_small && damage.refusal == number)
        };
        let others = [1, 2, 3, 5, 6, 8].into_iter().filter_map(of_another_number);
        let all: Vec<&Damage> = ACTING_DAMAGES.iter().chain(others).collect();
        for damage in all {
            // let begin, d v1
            let mut sample = acting::sample(&[B], let_in(&begin(), &acting::d(1)));
            sample.types.truncate(4);
            sample.calls.truncate(3);
            (damage.apply)(&mut self.random, &mut sample);
            let limits = Limits::with_capacity(&mut self.random, 1, 5);
            self.five_calls(&sample, limits);
        }
        for (turn, sample) in broken_acting_samples().iter().step_by(3).enumerate() {
            self.another_call(turn, sample);
        }
    }

    /// Terms as long as they may be, deep ones, and a table in which only the last call acts.
    fn acting_calls_at_their_limits(&mut self) {
        let longest = acting_lets((LONGEST_TO_NORMALIZE - 2) / 2);
        let exactly = Limits {
            lengths: [LONGEST_TO_NORMALIZE; 3],
            ..Limits::with_budget(0)
        };
        self.normalize(&longest, exactly);
        self.is_normal(&acting_lets((LONGEST_TO_EXAMINE - 2) / 2));
        self.check(&nested_stamps(1000));
        self.free_inputs_of(&acting_helpers(170));
        let deep = nested_stamps(80);
        for limits in near_needs(&mut self.random, &deep, MOST_STEPS) {
            self.normalize(&deep, limits);
        }
        // Lets of applications stay because of the last of many calls, and go without it.
        let mut sample = dropped_applications(2);
        sample.calls.resize(99, sample.calls[0]);
        self.is_normal(&sample);
        sample.calls.push(kept_applications(2).calls[2]);
        self.is_normal(&sample);
    }
}
