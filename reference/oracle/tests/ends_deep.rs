//! The end of the part at the front, on terms as deep as their length allows.
//! The calls are made from plain test threads: reading the tree sees to a deep stack itself.

use oracle::ends::{front_length, part_end};
use oracle::words::*;
use tools::generate::boundaries::{nested_calls, normal_chain, unused_lets};
use tools::generate::phrases::*;

fn word(kind: u64) -> u64 {
    pack_term(kind, 0, 0)
}

/// Nodes of this kind, each the first part of the one before, and variables for all other parts.
fn nested_in_the_first_part(kind: u64, parts: usize, words: usize) -> Vec<u64> {
    let nodes = (words - 1) / parts;
    let mut term = vec![word(kind); nodes];
    term.extend(variable(0).repeat(nodes * (parts - 1) + 1));
    term
}

/// Nodes of this kind, each the last part of the one before, and variables for all other parts.
fn nested_in_the_last_part(kind: u64, parts: usize, words: usize) -> Vec<u64> {
    let mut node = vec![word(kind)];
    node.extend(variable(0).repeat(parts - 1));
    let mut term = node.repeat((words - 1) / parts);
    term.extend(variable(0));
    term
}

/// Pairs of pairs: two to the power of `levels` variables.
fn wide_pairs(levels: usize) -> Vec<u64> {
    (0..levels).fold(variable(0), |half, _| pair(0, &half, &half))
}

/// Asserts that the words are a whole term: none if cut short, and the same with words behind.
fn check_whole(words: &[u64], calls: &[u64]) {
    let end = Some(words.len());
    assert_eq!(part_end(words, calls), end);
    assert_eq!(front_length(words, calls), end);
    for cut in [1, words.len() / 2, words.len() - 1] {
        assert_eq!(part_end(&words[..cut], calls), None);
        assert_eq!(front_length(&words[..cut], calls), None);
    }
    let behind = [words, words].concat();
    assert_eq!(part_end(&behind, calls), end);
    assert_eq!(front_length(&behind, calls), end);
    let mut unknown = words.to_vec();
    unknown[words.len() - 1] = word(12);
    assert_eq!(part_end(&unknown, calls), None);
    assert_eq!(front_length(&unknown, calls), None);
}

#[test]
fn terms_of_8192_words() {
    for (kind, parts) in [
        (FUNCTION, 1),
        (LET, 2),
        (PAIR, 2),
        (APPLICATION, 2),
        (CASE, 3),
    ] {
        for term in [
            nested_in_the_first_part(kind, parts, 8192),
            nested_in_the_last_part(kind, parts, 8192),
        ] {
            assert!((8190..=8192).contains(&term.len()));
            check_whole(&term, &[]);
        }
    }
    let pairs = wide_pairs(12);
    assert_eq!(pairs.len(), 8191);
    check_whole(&pairs, &[]);
    check_whole(&first(&pairs), &[]);
    for sample in [nested_calls(8192), unused_lets(8192), normal_chain(2730)] {
        check_whole(&sample.term, &sample.calls);
    }
}

#[test]
fn the_loop_needs_no_deep_stack() {
    let million = 1_000_000;
    for term in [
        nested_in_the_first_part(LET, 2, million),
        nested_in_the_last_part(LET, 2, million),
        nested_in_the_first_part(CASE, 3, million),
    ] {
        assert_eq!(part_end(&term, &[]), Some(term.len()));
        assert_eq!(part_end(&term[..term.len() - 1], &[]), None);
    }
}
