//! The refusals of the call free_inputs: those of check, with all else zero.

use oracle::free_inputs::free_inputs;
use std::collections::BTreeSet;
use tools::generate::boundaries::*;
use tools::generate::damage::{apply_damages, damages};
use tools::generate::each::{each_random_sample, each_sample_of_inputs};
use tools::generate::ill_typed::broken_samples;
use tools::generate::long_readings::longest_readings;
use tools::generate::Sample;

/// The refusal is that of check, and where there is one all else is zero.
fn check_refusal(sample: &Sample, why: &str) -> u32 {
    let answer = sample.free_inputs(free_inputs);
    assert_eq!(answer.refusal, sample.check().refusal, "{why}");
    if answer.refusal != 0 {
        assert_eq!((answer.marks, answer.count), ([0; 4], 0), "{why}");
    }
    answer.refusal
}

#[test]
fn refusals_are_those_of_check() {
    for damage in damages() {
        let count = if damage.is_small { 100 } else { 5 };
        each_random_sample(44, count, 40, |random, mut sample| {
            let refusal = apply_damages(random, &mut sample, &[damage]);
            assert_eq!(check_refusal(&sample, damage.name), refusal);
        });
    }
    for sample in broken_samples() {
        assert_eq!(check_refusal(&sample, "a broken typing rule"), 9);
    }
    let mut seen = BTreeSet::new();
    let mut small = damages();
    small.retain(|damage| damage.is_small);
    each_sample_of_inputs(45, 5000, 40, |random, mut sample| {
        let (one, other) = (*random.pick(&small), *random.pick(&small));
        if one.refusal != other.refusal {
            apply_damages(random, &mut sample, &[one, other]);
            seen.insert(check_refusal(&sample, one.name));
        }
    });
    // Of two different numbers the lower one is not 9.
    assert_eq!(seen, (1..9).collect());
}

#[test]
fn flipped_bits_are_refused_as_by_check() {
    let mut refusals = [0; 10];
    each_sample_of_inputs(46, 8000, 40, |random, mut sample| {
        let mut tables = [
            &mut sample.types,
            &mut sample.calls,
            &mut sample.inputs,
            &mut sample.term,
        ];
        let table = &mut tables[random.below(4)];
        if table.is_empty() {
            return;
        }
        let index = random.below(table.len());
        table[index] ^= 1 << random.below(64);
        let refusal = check_refusal(&sample, "a flipped bit");
        refusals[refusal as usize] += 1;
    });
    assert!(refusals[0] > 100, "{refusals:?}");
    assert!(
        refusals[2..].iter().all(|&count| count > 10),
        "{refusals:?}"
    );
}

#[test]
fn lengths_at_their_limits() {
    let terms = [
        (nested_calls(8192), 0),
        (nested_calls(8193), 1),
        (unused_lets(8192), 0),
        (unused_lets(8193), 1),
    ];
    for (sample, refusal) in tables_at_their_limits().into_iter().chain(terms) {
        assert_eq!(check_refusal(&sample, "at a limit"), refusal);
    }
    for shape in longest_readings() {
        let mut sample = shape.sample;
        sample.term.insert(0, 1 << 60 | 1 << 30);
        assert_eq!(check_refusal(&sample, shape.name), 1);
    }
    let empty = Sample {
        term: vec![],
        ..with_inputs(256)
    };
    assert_eq!(check_refusal(&empty, "no term word"), 1);
}
