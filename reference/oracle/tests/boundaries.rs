//! Lengths at and just past their limits, and terms as deep as they can be.
//! The calls are made from plain test threads: they see to a deep stack themselves.

use oracle::api::{normalize, Answer};
use oracle::bundle::{read_bundle, write_bundle};
use oracle::listing::respond;
use oracle::settings::Settings;
use tools::generate::boundaries::*;
use tools::generate::Sample;

fn check_refusal(sample: &Sample) -> u32 {
    let checked = sample.check();
    let normal = sample.is_normal();
    assert_eq!(checked.refusal, normal.refusal);
    checked.refusal
}

/// Normalizes with slices of these lengths.
fn normalize_with(sample: &Sample, budget: u32, lengths: [usize; 3]) -> Answer {
    let mut buffers = lengths.map(|length| vec![3; length]);
    let answer = sample.normalize(normalize, Settings::no_ceilings(budget), &mut buffers);
    let [output, first, second] = buffers;
    assert!(output[answer.length..].iter().all(|&word| word == 3));
    assert!(first.iter().chain(&second).all(|&word| word == 0));
    answer
}

fn normalize_refusal(sample: &Sample) -> u32 {
    normalize_with(sample, 1_000_000, [8192; 3]).refusal
}

#[test]
fn table_lengths() {
    for (sample, refusal) in tables_at_their_limits() {
        assert_eq!(check_refusal(&sample), refusal);
        assert_eq!(normalize_refusal(&sample), refusal);
    }
}

#[test]
fn term_lengths() {
    for (words, to_check, to_normalize) in [
        (4095, 0, 0),
        (4096, 0, 0),
        (4097, 0, 1),
        (8191, 0, 1),
        (8192, 0, 1),
        (8193, 1, 1),
    ] {
        let sample = unused_lets(words);
        assert_eq!(sample.term.len(), words);
        assert_eq!(check_refusal(&sample), to_check);
        assert_eq!(normalize_refusal(&sample), to_normalize);
    }
    let empty = Sample {
        term: vec![],
        ..unused_lets(3)
    };
    assert_eq!(check_refusal(&empty), 1);
    assert_eq!(normalize_refusal(&empty), 1);
}

#[test]
fn unused_lets_are_dropped() {
    let answer = normalize_with(&unused_lets(4096), 1_000_000, [4096; 3]);
    assert_eq!((answer.refusal, answer.length), (0, 4));
    assert_eq!(answer.counts, [0, 0, 0, 0, 0, 0, 0, 0, 0, 2046]);
    let answer = normalize_with(&unused_lets(4096), 2045, [4096; 3]);
    assert_eq!(answer.refusal, 10);
    assert_eq!(answer.counts, [0, 0, 0, 0, 0, 0, 0, 0, 0, 2045]);
    let answer = normalize_with(&unused_lets(4096), 0, [4096, 4095, 5000]);
    assert_eq!((answer.refusal, answer.counts), (11, [0; 10]));
}

#[test]
fn the_deepest_terms() {
    assert_eq!(check_refusal(&nested_calls(8192)), 0);
    let chain = normal_chain(2730);
    assert_eq!(chain.term.len(), 8191);
    let normal = chain.is_normal();
    assert!(normal.refusal == 0 && normal.normal);

    // The deepest input stops when it has no capacity for another let.
    let answer = normalize_with(&nested_calls(4096), 1_000_000, [10_000, 9000, 8200]);
    assert_eq!(answer.refusal, 11);
    assert_eq!(answer.counts, [2048, 0, 0, 0, 0, 0, 0, 0, 0, 0]);

    // n words grow to 3n - 2: the largest that fits in 8,192 words, and the next.
    let answer = normalize_with(&nested_calls(2731), 1_000_000, [8192; 3]);
    assert_eq!((answer.refusal, answer.length), (0, 8191));
    assert_eq!(answer.counts, [2730, 2729, 0, 0, 0, 0, 0, 0, 0, 0]);
    let answer = normalize_with(&nested_calls(2732), 1_000_000, [9000; 3]);
    assert_eq!(answer.refusal, 11);
    assert_eq!(answer.counts, [2730, 0, 0, 0, 0, 0, 0, 0, 0, 0]);
}

#[test]
fn bundle_lengths() {
    let mut words = vec![0; 8191];
    assert_eq!(read_bundle(&[0; 7], &mut words).refusal, 12);
    assert_eq!(read_bundle(&[0; 8], &mut words).refusal, 0);
    assert!(respond(&[0; 7]).starts_with(b"no 12 "));
    assert!(respond(&[0; 8]).starts_with(b"no 1 "));

    let mut largest = write_bundle(&[1; 4], &[2; 2], &[3; 6], &[4; 8179]);
    assert_eq!(largest.len(), 65_536);
    let lengths = read_bundle(&largest, &mut words);
    assert_eq!((lengths.refusal, lengths.term), (0, 8179));
    assert_eq!((words[0], words[8190]), (1, 4));
    assert!(respond(&largest).starts_with(b"no 1 "));
    assert_eq!(read_bundle(&largest, &mut words[1..]).refusal, 12);

    largest.push(0);
    assert_eq!(largest.len(), 65_537);
    assert_eq!(read_bundle(&largest, &mut words).refusal, 12);
    assert!(respond(&largest).starts_with(b"no 12 "));
    assert!(respond(&vec![0; 1 << 20]).starts_with(b"no 12 "));
}
