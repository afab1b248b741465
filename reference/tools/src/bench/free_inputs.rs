//! Times of free_inputs on shapes of 8,192 words: on words, on trees, and the verified library's.

use super::clock::processor_time;
use super::timing::{alternate, Sampler, Timing};
use crate::generate::shapes::Shape;
use crate::verified;
use oracle::free_inputs::{free_inputs, FindFreeInputs};
use std::hint::black_box;

/// An implementation of free_inputs.
#[derive(Clone, Copy)]
pub struct Finder {
    pub name: &'static str,
    pub free_inputs: FindFreeInputs,
}

/// The implementations at hand, in the order of those of the program.
pub fn finders() -> Vec<Finder> {
    let on_words = Finder {
        name: "words",
        free_inputs: baseline::free_inputs,
    };
    let on_trees = Finder {
        name: "trees",
        free_inputs,
    };
    let verified = verified::FREE_INPUTS.map(|free_inputs| Finder {
        name: "verified",
        free_inputs,
    });
    [on_words, on_trees].into_iter().chain(verified).collect()
}

/// A shape, how many marks it has, and the times of each implementation, in their order.
pub struct Found {
    pub shape: Shape,
    pub marks: u32,
    pub timings: Vec<Option<Timing>>,
}

/// Times the shape with each implementation; all answers are compared first.
pub fn find(shape: Shape, finders: &[Finder]) -> Found {
    let sample = &shape.sample;
    let expected = sample.free_inputs(baseline::free_inputs);
    let samplers = finders
        .iter()
        .map(|finder| {
            let started = processor_time();
            let found = sample.free_inputs(finder.free_inputs);
            let once = processor_time() - started;
            assert!(found == expected, "{} answers otherwise", finder.name);
            let work = || {
                black_box(black_box(sample).free_inputs(finder.free_inputs));
            };
            Some(Sampler::new(work, once))
        })
        .collect();
    let timings = alternate(samplers);
    Found {
        marks: expected.count,
        timings,
        shape,
    }
}
