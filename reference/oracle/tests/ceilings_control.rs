//! Control: wrong readings of the ceilings, each of which some bounds tell apart from the right one.

mod bounded;
mod lent;
mod readings;

use bounded::expected;
use lent::outcome;
use readings::{right, WRONG};
use tools::generate::ceilings::near_ceilings;
use tools::generate::each::{all_sorts, each_sample};
use tools::generate::steps::steps_of;

/// Walks of more steps are left out.
const MOST_STEPS: u32 = 200;

#[test]
fn wrong_readings_are_told_apart() {
    let (mut all, mut differing) = (0, [0; WRONG.len()]);
    for (make, seed) in all_sorts(151) {
        each_sample(make, seed, 1500, 40, |random, sample| {
            let Some(steps) = steps_of(&sample, MOST_STEPS) else {
                return;
            };
            for bounds in near_ceilings(random, &steps) {
                let (settings, capacity) = (bounds.settings, bounds.capacity);
                let found = right(&steps, settings, capacity);
                let (refusal, taken) = expected(&steps, settings, capacity);
                assert_eq!(found, (refusal, steps.counts_of_first(taken)));
                let (answer, _) = outcome(&sample, bounds.limits(random));
                assert_eq!(found, (answer.refusal, answer.counts));
                all += 1;
                for (count, (_, _, reading)) in differing.iter_mut().zip(WRONG) {
                    let other = reading(&steps, settings, capacity);
                    *count += usize::from(other != found);
                }
            }
        });
    }
    println!("of {all} bounds:");
    for ((name, least, _), count) in WRONG.iter().zip(differing) {
        println!("{count} differ: {name}");
        assert!(count >= *least, "{name}: {count}");
    }
}
