//! The verified library against both implementations, if it was linked (see build.rs).

use oracle::deep_stack::with_deep_stack;
use tools::corpus::answers::{answer, free_inputs_line};
use tools::corpus::contents::records;
use tools::corpus::records::Record;
use tools::generate::acting::small_acting;
use tools::generate::acting_shapes::{acting_shapes_of, moderate_acting_shapes};
use tools::generate::damage::flip_a_bit;
use tools::generate::each::{each_acting_sample, each_unit_sample};
use tools::generate::long_readings::longest_readings;
use tools::generate::shapes::{largest_shapes, typical};
use tools::generate::unit_shapes::{copied_units, unit_shapes_of};
use tools::generate::units::small_units;
use tools::generate::Sample;
use tools::random::Random;

use tools::verified::{FREE_INPUTS, RESPOND};

#[test]
fn it_answers_the_bundles_of_the_corpus() {
    let Some(respond) = RESPOND else { return };
    with_deep_stack(|| {
        for record in records() {
            if let Record::Respond(bundle) = &record {
                assert_eq!(respond(bundle), answer(&record));
            }
        }
    });
}

#[test]
fn it_answers_typical_terms_and_shapes() {
    let Some(respond) = RESPOND else { return };
    with_deep_stack(|| {
        let shapes = largest_shapes().into_iter().map(|shape| shape.sample);
        for sample in typical(31, 1000).into_iter().chain(shapes) {
            let bundle = sample.bundle();
            assert_eq!(respond(&bundle), baseline::respond(&bundle));
        }
    });
}

#[test]
fn it_finds_the_free_inputs_of_the_corpus() {
    let Some(free_inputs) = FREE_INPUTS else {
        return;
    };
    with_deep_stack(|| {
        for record in records() {
            if let Record::FreeInputs(sample) = &record {
                let line = free_inputs_line(free_inputs, sample);
                assert_eq!(line.into_bytes(), answer(&record));
            }
        }
    });
}

#[test]
fn it_finds_the_free_inputs_of_long_terms() {
    let Some(free_inputs) = FREE_INPUTS else {
        return;
    };
    with_deep_stack(|| {
        for shape in longest_readings().into_iter().chain(largest_shapes()) {
            let expected = shape.sample.free_inputs(baseline::free_inputs);
            let found = shape.sample.free_inputs(free_inputs);
            assert_eq!(found, expected, "{}", shape.name);
        }
    });
}

/// Asserts that the library, if it was linked, agrees with the implementation on words. No bundle
/// holds a term of 8,192 words: such a one is only read.
fn agrees(sample: &Sample, name: &str) {
    if let Some(free_inputs) = FREE_INPUTS {
        let expected = sample.free_inputs(baseline::free_inputs);
        assert_eq!(sample.free_inputs(free_inputs), expected, "{name}");
    }
    if let (Some(respond), ..8192) = (RESPOND, sample.term.len()) {
        let bundle = sample.bundle();
        assert_eq!(respond(&bundle), baseline::respond(&bundle), "{name}");
    }
}

fn agrees_with_a_flipped_bit(random: &mut Random, mut sample: Sample) {
    agrees(&sample, "random");
    flip_a_bit(random, &mut sample);
    agrees(&sample, "a flipped bit");
}

#[test]
fn it_answers_terms_with_units() {
    each_unit_sample(32, 2000, 60, agrees_with_a_flipped_bit);
    with_deep_stack(|| {
        let largest = unit_shapes_of(4096).into_iter().chain(unit_shapes_of(8192));
        for shape in small_units().into_iter().chain(largest) {
            agrees(&shape.sample, shape.name);
        }
        for injections in 0..3 {
            agrees(&copied_units(6, injections), "copies");
        }
    });
}

#[test]
fn it_answers_terms_with_acting_calls() {
    each_acting_sample(33, 2000, 60, agrees_with_a_flipped_bit);
    with_deep_stack(|| {
        let small = small_acting().into_iter().chain(moderate_acting_shapes());
        let largest = acting_shapes_of(4096)
            .into_iter()
            .chain(acting_shapes_of(8192));
        for shape in small.chain(largest) {
            agrees(&shape.sample, shape.name);
        }
    });
}
