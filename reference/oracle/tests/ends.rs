//! The end of the part at the front, on small lists of words: found by hand.

use oracle::ends::{front, front_length, part_end};
use oracle::term::Term;
use oracle::words::*;
use tools::generate::phrases::*;

/// The end, which the tree and the loop agree on.
fn end(words: &[u64], calls: &[u64]) -> Option<usize> {
    let end = part_end(words, calls);
    assert_eq!(
        front_length(words, calls),
        end,
        "{words:x?} over {calls:x?}"
    );
    end
}

/// A call word with this count.
fn count(count: u64) -> u64 {
    pack_call(count, 0, [0; 3])
}

const LARGEST: u64 = (1 << 30) - 1;

/// Each kind but calls, with the number of its parts.
const PARTS: [(u64, usize); 11] = [
    (VARIABLE, 0),
    (FUNCTION, 1),
    (APPLICATION, 2),
    (LET, 2),
    (PAIR, 2),
    (FIRST, 1),
    (SECOND, 1),
    (LEFT, 1),
    (RIGHT, 1),
    (CASE, 3),
    (UNIT, 0),
];

/// The word and so many variables behind it.
fn before_variables(word: u64, number: usize) -> Vec<u64> {
    let mut words = vec![word];
    words.extend(variable(0).repeat(number));
    words
}

/// Asserts that a node with this word has so many parts.
fn has_parts(word: u64, calls: &[u64], parts: usize) {
    for behind in 0..6 {
        let found = end(&before_variables(word, behind), calls);
        assert_eq!(found, (behind >= parts).then_some(parts + 1), "{word:x}");
    }
}

/// Asserts that no end is found from this word on.
fn has_no_end(word: u64, calls: &[u64]) {
    for behind in 0..20 {
        assert_eq!(end(&before_variables(word, behind), calls), None);
    }
}

#[test]
fn no_words_have_no_end() {
    assert_eq!(end(&[], &[]), None);
    assert_eq!(end(&[], &[count(0)]), None);
}

#[test]
fn each_kind_has_its_parts() {
    for (kind, parts) in PARTS {
        has_parts(pack_term(kind, 0, 0), &[], parts);
    }
    for kind in 12..16 {
        has_no_end(pack_term(kind, 0, 0), &[count(0)]);
    }
}

#[test]
fn fields_without_meaning_are_ignored() {
    for (kind, parts) in PARTS {
        for (number, type_number) in [(1, 0), (0, 1), (LARGEST, 0), (0, LARGEST)] {
            has_parts(pack_term(kind, number, type_number), &[], parts);
        }
        has_parts(pack_term(kind, LARGEST, LARGEST), &[], parts);
    }
    for type_number in [0, 1, LARGEST] {
        has_parts(pack_term(CALL, 1, type_number), &[count(0), count(2)], 2);
        has_no_end(pack_term(CALL, 2, type_number), &[count(0), count(2)]);
    }
}

#[test]
fn each_count_has_its_parts() {
    let word = pack_term(CALL, 0, 0);
    for arguments in 0..4 {
        for count in [arguments, 8 + arguments] {
            has_parts(word, &[pack_call(count, 0, [0; 3])], arguments as usize);
            // The types are not looked at, be they used or not.
            let types = [(1 << 15) - 1; 3];
            has_parts(
                word,
                &[pack_call(count, types[0], types)],
                arguments as usize,
            );
        }
    }
    for malformed in [4, 5, 6, 7, 12, 13, 14, 15] {
        has_no_end(word, &[count(malformed)]);
        has_no_end(word, &[count(malformed) | 1]);
    }
}

#[test]
fn calls_are_known_up_to_the_last() {
    let calls = [count(3), count(8), count(9)];
    for (number, parts) in [(0, 3), (1, 0), (2, 1)] {
        has_parts(pack_term(CALL, number, 0), &calls, parts);
    }
    for number in [3, 4, 1 << 15, LARGEST] {
        has_no_end(pack_term(CALL, number, 0), &calls);
    }
    has_no_end(pack_term(CALL, 0, 0), &[]);
    let most = vec![count(1); 2000];
    has_parts(pack_term(CALL, 1999, 0), &most, 1);
    has_no_end(pack_term(CALL, 2000, 0), &most);
}

/// Words without a known number of parts over these calls, of which the last is malformed.
const CALLS: [u64; 2] = [1 << 60, 4 << 60];
const UNKNOWN: [u64; 5] = [
    12 << 60,
    15 << 60,
    u64::MAX,
    1 << 60 | 1 << 30,
    1 << 60 | 2 << 30,
];

#[test]
fn unknown_words_count_before_the_end_only() {
    let terms = [
        variable(0),
        call(0, &[&unit(0)]),
        let_in(&variable(0), &variable(0)),
        case(&variable(0), &function(0, &variable(1)), &unit(0)),
        pair(0, &let_in(&unit(0), &variable(0)), &variable(7)),
    ];
    for term in terms {
        assert_eq!(end(&term, &CALLS), Some(term.len()));
        for unknown in UNKNOWN {
            for index in 0..term.len() {
                let mut inserted = term.clone();
                inserted.insert(index, unknown);
                let mut replaced = term.clone();
                replaced[index] = unknown;
                assert_eq!(end(&inserted, &CALLS), None);
                assert_eq!(end(&replaced, &CALLS), None);
            }
            let behind = [&term[..], &[unknown]].concat();
            assert_eq!(end(&behind, &CALLS), Some(term.len()));
            let further_behind = [&behind[..], &term[..]].concat();
            assert_eq!(end(&further_behind, &CALLS), Some(term.len()));
        }
    }
}

#[test]
fn a_malformed_call_that_no_node_names_does_not_matter() {
    let calls = [count(15), count(10), count(4)];
    has_parts(pack_term(CALL, 1, 0), &calls, 2);
    has_parts(pack_term(LET, 0, 0), &calls, 2);
}

#[test]
fn words_that_run_out_have_no_end() {
    let term = case(&call(0, &[&variable(0)]), &unit(0), &first(&variable(0)));
    for length in 0..term.len() {
        assert_eq!(end(&term[..length], &CALLS), None);
    }
    for behind in 0..4 {
        let words = [&term[..], &variable(0).repeat(behind)].concat();
        assert_eq!(end(&words, &CALLS), Some(term.len()));
    }
}

#[test]
fn the_term_at_the_front() {
    let words = let_in(&call(0, &[&unit(6)]), &pair(5, &variable(9), &variable(0)));
    let words = [&words[..], &UNKNOWN].concat();
    let bound = Term::Call(0, vec![Term::Unit(6)]);
    let (nine, zero) = (Term::Variable(9), Term::Variable(0));
    let body = Term::Pair(5, Box::new(nine), Box::new(zero));
    let term = Term::Let(Box::new(bound), Box::new(body));
    assert_eq!(front(&words, &CALLS), Some((term, 6)));
    assert_eq!(front(&words[6..], &CALLS), None);
}
