//! The end of the part at the front, on random terms, changed ones and random words.

use oracle::checks::Checked;
use oracle::coding::decode;
use oracle::ends::{front, front_length, part_end};
use tools::generate::each::{all_sorts, each_sample};
use tools::generate::ends::{any_words, changed, AnyWords, Effect, CHANGES};
use tools::random::Random;

#[test]
fn the_parts_of_whole_terms() {
    for (make, seed) in all_sorts(161) {
        each_sample(make, seed, 1000, 120, |_, sample| {
            let checked = sample.examine().expect("generated samples are well typed");
            let Checked { tables, term, .. } = checked;
            let words = &sample.term;
            assert_eq!(decode(words, &tables.signatures), Some(term.clone()));
            assert_eq!(
                front(words, &sample.calls),
                Some((term.clone(), words.len()))
            );
            for (index, node) in term.nodes().into_iter().enumerate() {
                let end = part_end(&words[index..], &sample.calls);
                assert_eq!(end, Some(node.size()));
            }
        });
    }
}

#[test]
fn each_change_has_its_effect() {
    let mut ends = [[0; 2]; CHANGES.len()];
    for (make, seed) in all_sorts(164) {
        each_sample(make, seed, 1000, 60, |random, sample| {
            for (change, ends) in CHANGES.iter().zip(&mut ends) {
                let AnyWords { calls, words } = changed(random, &sample, change);
                let end = part_end(&words, &calls);
                assert_eq!(front_length(&words, &calls), end, "{}", change.name);
                let kept = Some(sample.term.len());
                match change.effect {
                    Effect::Kept => assert_eq!(end, kept, "{}", change.name),
                    Effect::Lost => assert_eq!(end, None, "{}", change.name),
                    Effect::Open => ends[usize::from(end.is_none())] += 1,
                }
            }
        });
    }
    for (change, [with_end, without]) in CHANGES.iter().zip(ends) {
        if change.effect == Effect::Open {
            println!("{}: {with_end} ends, {without} without", change.name);
            assert!(with_end > 100 && without > 100, "{}", change.name);
        }
    }
}

/// Asserts that the end is where the first words are one term, and that no other first words are.
fn check_fronts(words: &[u64], calls: &[u64], end: Option<usize>) {
    for length in 0..=words.len() {
        let read = front_length(&words[..length], calls);
        let is_whole = read == Some(length);
        assert_eq!(is_whole, end == Some(length), "{words:x?} over {calls:x?}");
    }
}

/// Asserts that what stands behind the end does not matter.
fn check_behind(random: &mut Random, words: &[u64], calls: &[u64], end: usize) {
    let mut other: Vec<u64> = words[..end].to_vec();
    other.extend((0..random.below(5)).map(|_| random.bits()));
    assert_eq!(part_end(&other, calls), Some(end));
    assert_eq!(front(&other, calls), front(words, calls));
}

#[test]
fn the_loop_finds_the_end_of_the_tree() {
    let (mut all, mut with_end) = (0, 0);
    for (make, seed) in all_sorts(167) {
        each_sample(make, seed, 5000, 40, |random, sample| {
            let AnyWords { calls, words } = any_words(random, &sample);
            let end = part_end(&words, &calls);
            assert_eq!(front_length(&words, &calls), end);
            check_fronts(&words, &calls, end);
            if let Some(end) = end {
                check_behind(random, &words, &calls, end);
                with_end += 1;
            }
            all += 1;
        });
    }
    println!("{with_end} of {all} lists have an end");
    assert!(with_end > all / 3 && with_end < all * 2 / 3);
}
