//! Without ceilings every outcome is the former one, and 13 never falls.

mod former;
mod lent;

use former::former_normalize;
use lent::outcome;
use oracle::api::LARGEST_CAPACITY;
use oracle::listing::{listing, respond};
use tools::generate::acting::small_acting;
use tools::generate::boundaries::*;
use tools::generate::ceiling_shapes::{each_rule_once, one_step_terms};
use tools::generate::damage::flip_a_bit;
use tools::generate::deep::moderate_deep_shapes;
use tools::generate::each::{all_sorts, each_sample};
use tools::generate::limits::{near_needs, Limits};
use tools::generate::shapes::moderate_shapes;
use tools::generate::units::small_units;
use tools::generate::Sample;

/// Asserts that the call answers and writes what it did; answers the refusal.
fn as_before(sample: &Sample, limits: Limits) -> usize {
    assert!(limits.settings.has_no_ceilings());
    let mut buffers = limits.lengths.map(|length| vec![9; length]);
    let answer = former_normalize(sample, limits.settings.budget, &mut buffers);
    assert_eq!(outcome(sample, limits), (answer, buffers));
    assert_ne!(answer.refusal, 13);
    answer.refusal as usize
}

#[test]
fn budgets_and_capacities_at_their_edge() {
    let mut refusals = [0; 12];
    for (make, seed) in all_sorts(161) {
        each_sample(make, seed, 1500, 60, |random, sample| {
            for limits in near_needs(random, &sample, 2000) {
                refusals[as_before(&sample, limits)] += 1;
            }
            let budget = random.below(20) as u32;
            let capacity = random.below(100);
            let limits = Limits::with_capacity(random, budget, capacity);
            refusals[as_before(&sample, limits)] += 1;
        });
    }
    for refusal in [0, 10, 11] {
        assert!(refusals[refusal] > 3000, "{refusals:?}");
    }
}

#[test]
fn faults() {
    let mut refusals = [0; 12];
    for (make, seed) in all_sorts(164) {
        each_sample(make, seed, 4000, 40, |random, mut sample| {
            flip_a_bit(random, &mut sample);
            let limits = Limits::with_capacity(random, 10, 60);
            refusals[as_before(&sample, limits)] += 1;
        });
    }
    let falls = |refusal: usize| refusals[refusal] > 10;
    assert!((2..12).all(falls), "{refusals:?}");
}

#[test]
fn shapes() {
    let named = moderate_shapes().into_iter().chain(moderate_deep_shapes());
    let named = named.chain(small_units()).chain(small_acting());
    let mut samples: Vec<Sample> = named.map(|shape| shape.sample).collect();
    samples.extend(one_step_terms().map(|(_, sample)| sample));
    samples.extend([each_rule_once(), unused_lets(4096), nested_calls(2000)]);
    samples.extend([unused_lets(4097), with_types(1025)]);
    let mut refusals = [0; 12];
    for sample in samples {
        for budget in [0, 1, 100, 1_000_000, u32::MAX] {
            refusals[as_before(&sample, Limits::with_budget(budget))] += 1;
        }
    }
    assert!(refusals[0] > 100 && refusals[10] > 100, "{refusals:?}");
}

/// The listing of the former outcome within the program's limits.
fn former_response(sample: &Sample) -> Vec<u8> {
    let mut buffers = [0; 3].map(|_: usize| vec![0; LARGEST_CAPACITY]);
    let answer = former_normalize(sample, 1_000_000, &mut buffers);
    let mut text = vec![0; 200 + 17 * answer.length];
    let length = listing(&answer, &buffers[0], &mut text);
    text.truncate(length);
    text
}

#[test]
fn the_program_answers_as_before() {
    let mut accepted = 0;
    for (make, seed) in all_sorts(167) {
        each_sample(make, seed, 300, 60, |random, mut sample| {
            if random.chance(30) {
                flip_a_bit(random, &mut sample);
            }
            let response = respond(&sample.bundle());
            assert_eq!(response, former_response(&sample));
            assert!(!response.starts_with(b"no 13 "));
            accepted += usize::from(response.starts_with(b"ok "));
        });
    }
    assert!(accepted > 600, "{accepted} accepted");
}
