//! Every damaged input gives its refusal number, and the lower number of two.

use oracle::api::{normalize, Answer};
use oracle::bundle::{read_bundle, Lengths};
use oracle::listing::respond;
use oracle::settings::Settings;
use std::collections::BTreeSet;
use tools::generate::bundles::BUNDLE_DAMAGES;
use tools::generate::damage::{apply_damages, damages, flip_a_bit, Damage};
use tools::generate::each::each_random_sample;
use tools::generate::ill_typed::broken_samples;
use tools::generate::Sample;
use tools::random::Random;

/// Asserts that all public calls on tables refuse with this number and leave the slices right.
fn refused(sample: &Sample, refusal: u32, why: &str) {
    let checked = sample.check();
    assert_eq!(
        (checked.refusal, checked.type_number),
        (refusal, 0),
        "{why}"
    );
    let normal = sample.is_normal();
    assert_eq!((normal.refusal, normal.normal), (refusal, false), "{why}");
    let mut buffers = [vec![7; 40], vec![8; 50], vec![9; 30]];
    let answer = sample.normalize(normalize, Settings::no_ceilings(100), &mut buffers);
    let expected = Answer {
        refusal,
        type_number: 0,
        length: 0,
        counts: [0; 10],
    };
    assert_eq!(answer, expected, "{why}");
    assert_eq!(buffers, [vec![7; 40], vec![0; 50], vec![0; 30]]);
}

fn random_samples(seed: u64, count: usize, test: impl FnMut(&mut Random, Sample) + Send) {
    each_random_sample(seed, count, 40, test);
}

#[test]
fn each_damage_gives_its_number() {
    for damage in damages() {
        let count = if damage.is_small { 200 } else { 5 };
        random_samples(11, count, |random, mut sample| {
            let refusal = apply_damages(random, &mut sample, &[damage]);
            refused(&sample, refusal, damage.name);
        });
    }
    let numbers: BTreeSet<u32> = damages().iter().map(|damage| damage.refusal).collect();
    assert_eq!(numbers, (1..10).collect());
}

#[test]
fn the_lower_of_several_numbers_wins() {
    let all = damages();
    random_samples(12, 5000, |random, mut sample| {
        let mut damages: Vec<&Damage> = Vec::new();
        for _ in 0..random.between(2, 4) {
            let damage = *random.pick(&all);
            let is_new = damages.iter().all(|other| other.refusal != damage.refusal);
            if damage.is_small && is_new {
                damages.push(damage);
            }
        }
        if damages.is_empty() {
            return;
        }
        let refusal = apply_damages(random, &mut sample, &damages);
        let names: Vec<&str> = damages.iter().map(|damage| damage.name).collect();
        refused(&sample, refusal, &names.join(", "));
    });
}

#[test]
fn each_typing_rule_is_checked() {
    for sample in broken_samples() {
        refused(&sample, 9, &format!("{:x?}", sample.term));
    }
}

#[test]
fn order_traps() {
    let empty = |types: &[u64], term: &[u64]| Sample {
        types: types.to_vec(),
        calls: vec![],
        inputs: vec![0],
        term: term.to_vec(),
    };
    let bad_kind = 5 << 60;
    refused(&empty(&[0, 0, bad_kind], &[0]), 2, "2 after a duplicate");
    refused(&empty(&[bad_kind, bad_kind], &[0]), 2, "a bad word twice");
    refused(&empty(&[0, 0], &[0]), 3, "a duplicate");
    let bad_word = 12 << 60;
    refused(&empty(&[0], &[0, bad_word]), 6, "6 in a word left over");
    let unbound = 5 << 30;
    refused(&empty(&[0], &[unbound, 0]), 7, "7 before 8");
    let first = 6 << 60;
    refused(&empty(&[0], &[first, unbound]), 8, "8 before 9");
    refused(&empty(&[0], &[first, 0]), 9, "first of a base type");
    let no_types = Sample {
        types: vec![],
        ..empty(&[], &[0])
    };
    refused(&no_types, 5, "an input without types");
    let high_input = Sample {
        inputs: vec![1 << 60],
        ..empty(&[0], &[0])
    };
    refused(&high_input, 5, "whole words count");
}

#[test]
fn each_bundle_damage_gives_twelve() {
    let listing = b"no 12 0 0 0 0 0 0 0 0 0 0\n";
    let refused = Lengths {
        refusal: 12,
        ..Lengths::default()
    };
    for damage in BUNDLE_DAMAGES {
        let count = if damage.is_small { 200 } else { 5 };
        random_samples(13, count, |random, sample| {
            let mut bytes = sample.bundle();
            (damage.apply)(random, &mut bytes);
            let mut words = vec![5; 8192];
            assert_eq!(read_bundle(&bytes, &mut words), refused, "{}", damage.name);
            assert!(words.iter().all(|&word| word == 5));
            assert_eq!(respond(&bytes), listing, "{}", damage.name);
        });
    }
}

#[test]
fn the_reader_needs_a_slice_as_long_as_the_tables() {
    random_samples(14, 500, |_, sample| {
        let bytes = sample.bundle();
        let mut words = vec![5; sample.words() - 1];
        assert_eq!(read_bundle(&bytes, &mut words).refusal, 12);
        assert!(words.iter().all(|&word| word == 5));

        let mut words = vec![5; sample.words() + 1];
        let expected = Lengths {
            refusal: 0,
            types: sample.types.len(),
            calls: sample.calls.len(),
            inputs: sample.inputs.len(),
            term: sample.term.len(),
        };
        assert_eq!(read_bundle(&bytes, &mut words), expected);
        let Sample {
            types,
            calls,
            inputs,
            term,
        } = sample;
        let tables = [types, calls, inputs, term, vec![5]].concat();
        assert_eq!(words, tables);
    });
}

#[test]
fn respond_lists_what_normalize_answers() {
    random_samples(15, 300, |random, mut sample| {
        if random.chance(50) {
            let mut small = damages();
            small.retain(|damage| damage.is_small);
            let damage = *random.pick(&small);
            apply_damages(random, &mut sample, &[damage]);
        }
        let mut buffers = [vec![0; 8192], vec![0; 8192], vec![0; 8192]];
        let answer = sample.normalize(normalize, Settings::no_ceilings(1_000_000), &mut buffers);
        let counts: String = answer.counts.iter().map(|n| format!(" {n}")).collect();
        let mut expected = match answer.refusal {
            0 => format!("ok {} {}{counts}\n", answer.type_number, answer.length),
            refusal => format!("no {refusal}{counts}\n"),
        };
        for word in &buffers[0][..answer.length] {
            expected += &format!("{word:016x}\n");
        }
        assert_eq!(String::from_utf8(respond(&sample.bundle())), Ok(expected));
    });
}

#[test]
fn flipped_bits_do_no_harm() {
    random_samples(16, 20_000, |random, mut sample| {
        for _ in 0..random.between(1, 3) {
            flip_a_bit(random, &mut sample);
        }
        let checked = sample.check();
        let normal = sample.is_normal();
        assert_eq!(checked.refusal, normal.refusal);
        assert!(checked.refusal <= 9);
        let mut buffers = [vec![7; 90], vec![8; 80], vec![9; 70]];
        let answer = sample.normalize(normalize, Settings::no_ceilings(100), &mut buffers);
        match checked.refusal {
            0 => assert!(matches!(answer.refusal, 0 | 10 | 11)),
            refusal => assert_eq!(answer.refusal, refusal),
        }
        if answer.refusal == 0 {
            assert_eq!(answer.type_number, checked.type_number);
            let steps: u32 = answer.counts.iter().sum();
            assert_eq!(normal.normal, steps == 0);
        }
    });
}

#[test]
fn random_bytes_do_no_harm() {
    let mut random = Random::new(17);
    for _ in 0..2000 {
        let length = random.below(100);
        let bytes: Vec<u8> = (0..length).map(|_| random.bits() as u8).collect();
        assert!(respond(&bytes).starts_with(b"no 12 "));
    }
}
