//! Samples for free_inputs: accepted ones with few and with many inputs, each refusal, and tables at
//! their limits.

use super::Contents;
use crate::generate::boundaries::*;
use crate::generate::damage::{apply_damages, Damage, DAMAGES};
use crate::generate::deep::moderate_deep_shapes;
use crate::generate::examples::base_examples;
use crate::generate::ill_typed::broken_samples;
use crate::generate::inputs::*;
use crate::generate::long_readings::*;
use crate::generate::shapes::moderate_shapes;
use crate::generate::{Profile, Sample};

impl Contents {
    pub fn free_inputs(&mut self) {
        self.random_terms();
        self.readings();
        self.shapes();
        self.refused_readings();
        self.readings_at_their_limits();
    }

    fn random_terms(&mut self) {
        for _ in 0..120 {
            let (sample, _) = self.sample(40);
            self.free_inputs_of(&sample);
        }
        for count in INPUT_COUNTS.repeat(5) {
            let sample = sample_of_inputs(&mut self.random, &Profile::of_size(40), count);
            self.free_inputs_of(&sample);
        }
    }

    /// Inputs read at known places.
    fn readings(&mut self) {
        let mut readings = border_readings();
        readings.extend(place_readings());
        readings.extend(whole_readings());
        readings.extend((0..40).map(|_| random_reading(&mut self.random, 6, 5)));
        for reading in readings {
            self.free_inputs_of(&reading.sample);
        }
    }

    fn shapes(&mut self) {
        for shape in moderate_shapes().into_iter().chain(moderate_deep_shapes()) {
            self.free_inputs_of(&shape.sample);
        }
        for sample in [
            calls_of_inputs(20),
            lets_of_inputs(60),
            pairs_of_inputs(6),
            functions_of_inputs(60),
        ] {
            self.free_inputs_of(&sample);
        }
        for example in base_examples() {
            self.free_inputs_of(&example.sample);
        }
    }

    /// Each reason of the refusals 1 to 9, alone and with a second one.
    fn refused_readings(&mut self) {
        let small: Vec<&Damage> = DAMAGES.iter().filter(|damage| damage.is_small).collect();
        for &damage in &small {
            for _ in 0..3 {
                self.damaged_reading(&[damage]);
            }
        }
        for _ in 0..60 {
            let one = *self.random.pick(&small);
            let other = *self.random.pick(&small);
            if one.refusal != other.refusal {
                self.damaged_reading(&[one, other]);
            }
        }
        for sample in broken_samples().iter().step_by(4) {
            self.free_inputs_of(sample);
        }
    }

    fn damaged_reading(&mut self, damages: &[&Damage]) {
        let (mut sample, _) = self.sample(20);
        apply_damages(&mut self.random, &mut sample, damages);
        self.free_inputs_of(&sample);
    }

    fn readings_at_their_limits(&mut self) {
        let without_term = Sample {
            term: Vec::new(),
            ..with_inputs(256)
        };
        for sample in [
            with_types(1024),
            with_types(1025),
            with_calls(1024),
            with_calls(1025),
            with_inputs(255),
            with_inputs(256),
            with_inputs(257),
            without_term,
        ] {
            self.free_inputs_of(&sample);
        }
        // 3k + 2 words for k levels: 8,192 words. Many parts to come, and many binders.
        self.free_inputs_of(&calls_of_inputs(2730));
        self.free_inputs_of(&functions_of_inputs(2730));
        self.free_inputs_of(&nested_calls(8193));
    }
}
