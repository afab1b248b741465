//! Control: wrong readings of the loop, each of which some words tell apart from the right one.

mod loops;

use loops::{right, WRONG};
use oracle::ends::{front_length, part_end};
use tools::generate::each::{all_sorts, each_sample};
use tools::generate::ends::{any_words, AnyWords};

#[test]
fn wrong_readings_are_told_apart() {
    let (mut all, mut differing) = (0, [0; WRONG.len()]);
    for (make, seed) in all_sorts(171) {
        each_sample(make, seed, 5000, 40, |random, sample| {
            let AnyWords { calls, words } = any_words(random, &sample);
            let found = right(&words, &calls);
            assert_eq!(part_end(&words, &calls), found);
            assert_eq!(front_length(&words, &calls), found);
            all += 1;
            for (count, (_, _, reading)) in differing.iter_mut().zip(WRONG) {
                let other = reading(&words, &calls);
                *count += usize::from(other != found);
            }
        });
    }
    println!("of {all} lists of words:");
    for ((name, least, _), count) in WRONG.iter().zip(differing) {
        println!("{count} differ: {name}");
        assert!(count >= *least, "{name}: {count}");
    }
}
