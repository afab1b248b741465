//! The shapes with many acting calls: their lengths, and the steps and the length of the normal form
//! that they are named for.

use oracle::api::normalize;
use oracle::reduction::Counts;
use tools::generate::acting_shapes::*;
use tools::generate::limits::Limits;
use tools::generate::Sample;

/// Asserts the length of the term, the counts, and the length of the normal form.
fn reduces(sample: &Sample, words: usize, counts: Counts, length: usize) {
    let limits = Limits::OF_PROGRAM;
    let mut buffers = limits.lengths.map(|length| vec![0; length]);
    let answer = sample.normalize(normalize, limits.settings, &mut buffers);
    assert_eq!(sample.term.len(), words);
    assert_eq!(
        (answer.refusal, answer.counts, answer.length),
        (0, counts, length)
    );
    assert_eq!(sample.is_normal().normal, counts == [0; 10]);
}

fn drops(count: u32) -> Counts {
    [0, 0, 0, 0, 0, 0, 0, 0, 0, count]
}

#[test]
fn lets_that_stay_and_lets_that_go() {
    for lets in [1, 2, 30, 500] {
        reduces(&acting_lets(lets), 2 * lets + 2, [0; 10], 2 * lets + 2);
        let dropped = drops(lets as u32);
        reduces(&mixed_lets(lets), 4 * lets + 1, dropped, 2 * lets + 1);
        let words = 4 * lets + 1;
        reduces(&kept_applications(lets), words, [0; 10], words);
        reduces(&dropped_applications(lets), words, dropped, 1);
        let dropped = drops(lets as u32 - 1);
        reduces(&cascade_to_an_acting_call(lets), 3 * lets, dropped, 3);
    }
}

#[test]
fn nested_calls_and_helpers() {
    for depth in [2, 3, 40, 300] {
        let inserted = depth as u32 - 1;
        let counts = [inserted, inserted - 1, 0, 0, 0, 0, 0, 0, 0, 0];
        reduces(&nested_stamps(depth), depth, counts, 3 * depth - 2);
        let counts = [0, 0, 0, depth as u32, 0, 0, 0, 0, 0, 0];
        reduces(&acting_helpers(depth), 6 * depth + 2, counts, 3 * depth + 2);
    }
}

#[test]
fn branches() {
    for lets in [1, 2, 5, 8] {
        // Each let stands once under each way to it: one branch drops its call, the other keeps it.
        let ways = (1 << lets) - 1;
        let counts = [0, 0, ways, 0, 0, 0, 0, 0, 0, ways];
        let length = (2 + 3) * ways as usize + ways as usize + 1;
        reduces(&acting_branches(lets), 7 * lets + 1, counts, length);
    }
}
