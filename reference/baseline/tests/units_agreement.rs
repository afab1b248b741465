//! Both implementations on samples with units.

mod compared;
mod random_terms;
mod sampled;

use compared::agree;
use oracle::listing;
use random_terms::agree_on_random_terms;
use sampled::*;
use tools::generate::damage::flip_a_bit;
use tools::generate::each::{each_unit_sample, unit_sample};
use tools::generate::later_examples::plate;
use tools::generate::limits::Limits;
use tools::generate::unit_damage::{broken_unit_samples, UNIT_DAMAGES};
use tools::generate::unit_shapes::*;
use tools::generate::units::small_units;

#[test]
fn random_terms() {
    agree_on_random_terms(unit_sample, 26, 4000);
}

#[test]
fn budgets_and_capacities_at_their_edge() {
    agree_at_the_edge(unit_sample, 27);
}

#[test]
fn faults() {
    agree_on_damages(unit_sample, 28, UNIT_DAMAGES, broken_unit_samples());
    each_unit_sample(29, 10_000, 40, |random, mut sample| {
        flip_a_bit(random, &mut sample);
        let limits = Limits::with_capacity(random, 50, 200);
        agree(&sample, limits, "a flipped bit");
    });
}

#[test]
fn shapes() {
    let small = small_units().into_iter().chain(moderate_unit_shapes());
    agree_on_shapes(small.chain(unit_shapes_of(4096)));
    agree_on_long_shapes(unit_shapes_of(8192));
    agree(&plate().sample, Limits::OF_PROGRAM, "plate");
}

#[test]
fn terms_that_become_as_long_as_they_may() {
    for (injections, length, refusal) in [(0, 8192, 0), (1, 8192, 0), (1, 8191, 11), (2, 9000, 11)]
    {
        let limits = Limits {
            lengths: [length, 9000, 8192],
            ..Limits::with_budget(1)
        };
        let answer = agree(&copied_units(6, injections), limits, "copies");
        assert_eq!(answer.refusal, refusal);
        let longest = 8191 + injections;
        assert_eq!(answer.length, if refusal == 0 { longest } else { 0 });
    }
}

#[test]
fn listings() {
    each_unit_sample(30, 1000, 60, |_, sample| {
        let bundle = sample.bundle();
        assert_eq!(baseline::respond(&bundle), listing::respond(&bundle));
    });
}
