//! The normalizer on words against the tree implementation: answers and all words of the buffers.

mod compared;
mod random_terms;

use compared::{agree, outcome};
use oracle::api::Answer;
use oracle::listing;
use random_terms::agree_on_random_terms;
use tools::generate::boundaries::*;
use tools::generate::bundles::BUNDLE_DAMAGES;
use tools::generate::damage::{apply_damages, damages};
use tools::generate::deep::*;
use tools::generate::each::{each_random_sample, plain_sample};
use tools::generate::ill_typed::broken_samples;
use tools::generate::limits::{needs, Limits};
use tools::generate::shapes::*;

fn steps(answer: &Answer) -> u32 {
    answer.counts.iter().sum()
}

#[test]
fn random_terms() {
    agree_on_random_terms(plain_sample, 21, 4000);
}

#[test]
fn budgets_and_capacities_at_their_edge() {
    let mut refusals = [0; 3];
    each_random_sample(22, 2500, 60, |random, sample| {
        let Some(needs) = needs(&sample, 2000) else {
            return;
        };
        for missing in [(0, 0), (1, 0), (0, 1), (1, 1)] {
            let (Some(budget), Some(capacity)) = (
                needs.steps.checked_sub(missing.0),
                needs.capacity.checked_sub(missing.1 as usize),
            ) else {
                continue;
            };
            let limits = Limits::with_capacity(random, budget, capacity);
            let answer = agree(&sample, limits, "at the edge");
            assert_eq!(answer.refusal == 0, missing == (0, 0));
            refusals[answer.refusal.saturating_sub(9) as usize] += 1;
        }
        let budget = random.between(0, needs.steps as usize) as u32;
        let capacity = random.between(0, needs.capacity);
        let limits = Limits::with_capacity(random, budget, capacity);
        agree(&sample, limits, "within");
    });
    assert!(refusals.iter().all(|&count| count > 1000), "{refusals:?}");
}

#[test]
fn damaged_tables() {
    each_random_sample(23, 4000, 40, |random, mut sample| {
        let damage = *random.pick(&damages());
        let refusal = apply_damages(random, &mut sample, &[damage]);
        let limits = Limits::with_capacity(random, 100, 100);
        assert_eq!(agree(&sample, limits, damage.name).refusal, refusal);
    });
    for sample in broken_samples() {
        let answer = agree(&sample, Limits::OF_PROGRAM, "ill typed");
        assert_eq!(answer.refusal, 9);
    }
}

#[test]
fn lengths_at_their_limits() {
    let mut samples = vec![
        with_types(1024),
        with_types(1025),
        with_calls(1024),
        with_calls(1025),
        with_inputs(256),
        with_inputs(257),
        nested_calls(2731),
        nested_calls(2732),
    ];
    samples.extend([4095, 4096, 4097, 8192].map(unused_lets));
    for sample in &samples {
        agree(sample, Limits::OF_PROGRAM, "at a limit");
    }
    for length in [4095, 4096, 8191, 8193] {
        let lengths = [length, 9000, 9000];
        let limits = Limits {
            lengths,
            ..Limits::OF_PROGRAM
        };
        agree(&unused_lets(4096), limits, "a short output");
        agree(&nested_calls(2731), limits, "a short output");
    }
}

#[test]
fn slow_shapes_at_moderate_size() {
    for Shape { name, sample } in moderate_shapes().into_iter().chain(moderate_deep_shapes()) {
        let answer = agree(&sample, Limits::OF_PROGRAM, name);
        let limits = Limits::with_budget(steps(&answer).saturating_sub(1));
        agree(&sample, limits, name);
    }
}

#[test]
fn deep_shapes_at_full_size() {
    for Shape { name, sample } in named_deep_shapes() {
        let answer = agree(&sample, Limits::OF_PROGRAM, name);
        let has_capacity = !name.ends_with("no capacity");
        assert_eq!(answer.refusal, if has_capacity { 0 } else { 11 }, "{name}");
    }
    // One level more passes a limit.
    for (sample, refusal) in [
        (nested_pairs(1020), 1),
        (nested_injections(1020), 1),
        (nested_applications(1020), 1),
        (nested_functions(1020), 1),
        (nested_lets(2048), 1),
        (nested_cases(1366), 1),
        (nested_subjects(586), 11),
    ] {
        let answer = agree(&sample, Limits::OF_PROGRAM, "too deep");
        assert_eq!(answer.refusal, refusal);
    }
}

#[test]
fn shapes_take_the_steps_they_are_named_for() {
    for levels in 0..10 {
        let sample = doubling(levels);
        assert_eq!(sample.term.len(), 7 * levels + 7);
        let answer = outcome(baseline::normalize, &sample, Limits::OF_PROGRAM).0;
        assert_eq!(steps(&answer), 6 * (1 << levels) - 4);
    }
    let sample = quadrupling(9);
    assert_eq!(sample.term.len(), 103);
    let padded = padded_doubling(17);
    // The longest term comes within the first hundred steps; all of them take seconds.
    for (length, refusal) in [(3371, 10), (3370, 11)] {
        let limits = Limits {
            lengths: [length; 3],
            ..Limits::with_budget(1000)
        };
        let answer = outcome(baseline::normalize, &padded, limits).0;
        assert_eq!(answer.refusal, refusal);
    }
}

#[test]
fn listings() {
    each_random_sample(24, 1000, 60, |random, mut sample| {
        if random.chance(30) {
            let damage = *random.pick(&damages());
            if damage.is_small {
                apply_damages(random, &mut sample, &[damage]);
            }
        }
        let mut bytes = sample.bundle();
        if random.chance(30) {
            (random.pick(BUNDLE_DAMAGES).apply)(random, &mut bytes);
        }
        assert_eq!(baseline::respond(&bytes), listing::respond(&bytes));
    });
}

#[test]
fn typical_terms() {
    for sample in typical(25, 300) {
        assert!((13..=110).contains(&sample.term.len()));
        agree(&sample, Limits::with_budget(3000), "typical");
    }
}
