//! The end of the part at the front, on all short lists of a few words.

mod grammar;

use grammar::is_term;
use oracle::deep_stack::with_deep_stack;
use oracle::ends::{front_length, part_end};
use oracle::words::*;

const fn call(number: u64) -> u64 {
    CALL << 60 | number << 30
}

const CALLS: [u64; 5] = [0, 1 << 60, 10 << 60, 4 << 60, 15 << 60];

/// Each sort of word: known ones, then those without a known number of parts.
const ALL_SORTS: [u64; 12] = [
    VARIABLE << 60,
    UNIT << 60 | 5,
    FUNCTION << 60,
    LET << 60 | 1 << 30,
    CASE << 60,
    call(0),
    call(1),
    call(2),
    call(3),
    call(4),
    call(5),
    12 << 60,
];

/// Fewer of them, for longer lists.
const FEW_SORTS: [u64; 5] = [
    VARIABLE << 60,
    SECOND << 60,
    PAIR << 60,
    CASE << 60,
    call(3),
];

/// Hands all lists of up to so many of the words to `test`.
fn each_list(alphabet: &[u64], longest: usize, test: &mut impl FnMut(&[u64])) {
    fn extend(
        list: &mut Vec<u64>,
        alphabet: &[u64],
        longest: usize,
        test: &mut impl FnMut(&[u64]),
    ) {
        test(list);
        if list.len() == longest {
            return;
        }
        for &word in alphabet {
            list.push(word);
            extend(list, alphabet, longest, test);
            list.pop();
        }
    }
    extend(&mut Vec::new(), alphabet, longest, test);
}

/// Checks all lists; answers how many there are, and how many have an end.
fn check(alphabet: &[u64], longest: usize) -> (usize, usize) {
    with_deep_stack(|| {
        let (mut lists, mut with_end) = (0, 0);
        each_list(alphabet, longest, &mut |words| {
            let fronts = (0..=words.len()).filter(|&n| is_term(&words[..n], &CALLS));
            let fronts: Vec<usize> = fronts.collect();
            assert!(fronts.len() <= 1, "{words:x?} has the ends {fronts:?}");
            let expected = fronts.first().copied();
            assert_eq!(part_end(words, &CALLS), expected, "{words:x?}");
            assert_eq!(front_length(words, &CALLS), expected, "{words:x?}");
            lists += 1;
            with_end += usize::from(expected.is_some());
        });
        (lists, with_end)
    })
}

#[test]
fn all_lists_of_up_to_five_words() {
    let (lists, with_end) = check(&ALL_SORTS, 5);
    assert_eq!(lists, (0..6).map(|length| 12usize.pow(length)).sum());
    println!("{with_end} of {lists} lists have an end");
    assert!(with_end > lists / 5 && with_end < lists / 2);
}

#[test]
fn all_lists_of_up_to_eight_words() {
    let (lists, with_end) = check(&FEW_SORTS, 8);
    assert_eq!(lists, (0..9).map(|length| 5usize.pow(length)).sum());
    println!("{with_end} of {lists} lists have an end");
    assert!(with_end > lists / 5 && with_end < lists / 2);
}

/// Whether reading all of the words as one term succeeds.
fn is_whole(words: &[u64]) -> bool {
    front_length(words, &CALLS) == Some(words.len())
}

#[test]
fn the_end_is_where_the_first_words_are_one_term() {
    with_deep_stack(|| {
        each_list(&ALL_SORTS, 4, &mut |words| {
            let end = part_end(words, &CALLS);
            for length in 0..=words.len() {
                assert_eq!(is_whole(&words[..length]), end == Some(length));
            }
        });
    });
}
