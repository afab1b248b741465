//! The call free_inputs on words against the one on trees.

use oracle::free_inputs::{free_inputs, FreeInputs};
use tools::generate::boundaries::*;
use tools::generate::damage::{apply_damages, damages, flip_a_bit};
use tools::generate::deep::{moderate_deep_shapes, named_deep_shapes};
use tools::generate::each::{each_random_sample, each_sample_of_inputs};
use tools::generate::examples::examples;
use tools::generate::ill_typed::broken_samples;
use tools::generate::inputs::*;
use tools::generate::long_readings::longest_readings;
use tools::generate::shapes::{largest_shapes, moderate_shapes, typical};
use tools::generate::Sample;
use tools::random::Random;

/// Asserts that both implementations agree; answers the answer.
fn agree(sample: &Sample, name: &str) -> FreeInputs {
    let on_trees = sample.free_inputs(free_inputs);
    let on_words = sample.free_inputs(baseline::free_inputs);
    assert_eq!(on_words, on_trees, "{name}");
    on_trees
}

#[test]
fn random_terms() {
    each_random_sample(21, 4000, 150, |_, sample| {
        assert_eq!(agree(&sample, "random").refusal, 0);
    });
    for sample in typical(25, 300) {
        agree(&sample, "typical");
    }
    let mut marks = 0;
    each_sample_of_inputs(51, 1600, 150, |_, sample| {
        marks += agree(&sample, "of many inputs").count;
    });
    assert!(marks > 5000, "{marks} marks");
}

#[test]
fn readings() {
    let mut readings = border_readings();
    readings.extend(place_readings());
    readings.extend(whole_readings());
    let mut random = Random::new(52);
    readings.extend((0..3000).map(|_| random_reading(&mut random, 8, 8)));
    for reading in readings {
        let answer = agree(&reading.sample, "a reading");
        assert_eq!(answer.count as usize, reading.inputs.len());
    }
}

#[test]
fn damaged_tables() {
    each_random_sample(23, 4000, 40, |random, mut sample| {
        let damage = *random.pick(&damages());
        let refusal = apply_damages(random, &mut sample, &[damage]);
        assert_eq!(agree(&sample, damage.name).refusal, refusal);
    });
    for sample in broken_samples() {
        assert_eq!(agree(&sample, "ill typed").refusal, 9);
    }
}

#[test]
fn flipped_bits() {
    each_random_sample(53, 10_000, 40, |random, mut sample| {
        flip_a_bit(random, &mut sample);
        agree(&sample, "a flipped bit");
    });
}

#[test]
fn lengths_at_their_limits() {
    let terms = [
        (nested_calls(8192), 0),
        (nested_calls(8193), 1),
        (unused_lets(4097), 0),
        (unused_lets(8192), 0),
        (unused_lets(8193), 1),
        (normal_chain(2730), 0),
    ];
    for (sample, refusal) in tables_at_their_limits().into_iter().chain(terms) {
        assert_eq!(agree(&sample, "at a limit").refusal, refusal);
    }
}

#[test]
fn shapes() {
    let moderate = moderate_shapes().into_iter().chain(moderate_deep_shapes());
    let largest = largest_shapes().into_iter().chain(named_deep_shapes());
    for shape in moderate.chain(largest) {
        agree(&shape.sample, shape.name);
    }
    for shape in longest_readings() {
        assert_eq!(agree(&shape.sample, shape.name).count, 256);
    }
    for example in examples() {
        agree(&example.sample, example.name);
    }
}
