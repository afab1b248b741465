//! Both implementations on samples with calls that act.

mod compared;
mod random_terms;
mod sampled;

use compared::agree;
use oracle::listing;
use random_terms::agree_on_random_terms;
use sampled::*;
use tools::generate::acting::small_acting;
use tools::generate::acting_damage::{broken_acting_samples, ACTING_DAMAGES};
use tools::generate::acting_shapes::*;
use tools::generate::damage::flip_a_bit;
use tools::generate::each::{acting_sample, each_acting_sample};
use tools::generate::limits::Limits;

#[test]
fn random_terms() {
    agree_on_random_terms(acting_sample, 36, 5000);
}

#[test]
fn budgets_and_capacities_at_their_edge() {
    agree_at_the_edge(acting_sample, 37);
}

#[test]
fn faults() {
    agree_on_damages(acting_sample, 38, ACTING_DAMAGES, broken_acting_samples());
    each_acting_sample(39, 10_000, 40, |random, mut sample| {
        for _ in 0..random.between(1, 3) {
            flip_a_bit(random, &mut sample);
        }
        let limits = Limits::with_capacity(random, 50, 200);
        agree(&sample, limits, "flipped bits");
    });
}

#[test]
fn shapes() {
    let small = small_acting().into_iter().chain(moderate_acting_shapes());
    agree_on_shapes(small.chain(acting_shapes_of(4096)));
    agree_on_long_shapes(acting_shapes_of(8192));
    for (words, refusal) in [(2731, 0), (2732, 11), (8192, 1)] {
        let answer = agree(&nested_stamps(words), Limits::OF_PROGRAM, "nested calls");
        assert_eq!(answer.refusal, refusal);
    }
}

#[test]
fn listings() {
    each_acting_sample(40, 1500, 60, |random, mut sample| {
        if random.chance(30) {
            flip_a_bit(random, &mut sample);
        }
        let bundle = sample.bundle();
        assert_eq!(baseline::respond(&bundle), listing::respond(&bundle));
    });
}
