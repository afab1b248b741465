//! The public calls on a sample.

use super::Sample;
use oracle::api::{self, Answer, CheckAnswer, NormalAnswer, Normalize};
use oracle::dialect::Dialect;
use oracle::free_inputs::{FindFreeInputs, FreeInputs};
use oracle::settings::Settings;

impl Sample {
    pub fn check(&self) -> CheckAnswer {
        api::check(&self.types, &self.calls, &self.inputs, &self.term)
    }

    pub fn is_normal(&self) -> NormalAnswer {
        api::is_normal(&self.types, &self.calls, &self.inputs, &self.term)
    }

    /// Any implementation of free_inputs.
    pub fn free_inputs(&self, free_inputs: FindFreeInputs) -> FreeInputs {
        free_inputs(&self.types, &self.calls, &self.inputs, &self.term)
    }

    /// Any implementation of normalize, over the output and the two scratch buffers.
    pub fn normalize(
        &self,
        normalize: Normalize,
        settings: Settings,
        buffers: &mut [Vec<u64>; 3],
    ) -> Answer {
        let [output, first, second] = buffers;
        normalize(
            &self.types,
            &self.calls,
            &self.inputs,
            &self.term,
            settings,
            output,
            first,
            second,
        )
    }
}

/// The same calls in any dialect.
impl Sample {
    pub fn check_in(&self, dialect: Dialect) -> CheckAnswer {
        dialect.check(&self.types, &self.calls, &self.inputs, &self.term)
    }

    pub fn is_normal_in(&self, dialect: Dialect) -> NormalAnswer {
        dialect.is_normal(&self.types, &self.calls, &self.inputs, &self.term)
    }

    pub fn free_inputs_in(&self, dialect: Dialect) -> FreeInputs {
        dialect.free_inputs(&self.types, &self.calls, &self.inputs, &self.term)
    }

    pub fn normalize_in(
        &self,
        dialect: Dialect,
        settings: Settings,
        buffers: &mut [Vec<u64>; 3],
    ) -> Answer {
        let lent = buffers.each_mut().map(|buffer| &mut buffer[..]);
        let (calls, inputs) = (&self.calls, &self.inputs);
        dialect.normalize(&self.types, calls, inputs, &self.term, settings, lent)
    }
}
