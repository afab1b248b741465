//! Where 13 stands among the refusals: behind 1 to 9 and the input's length, at each step behind 10 and
//! before 11; and that a ceiling says nothing but for its own rule's next step.

mod lent;

use lent::outcome;
use oracle::reduction::Counts;
use oracle::rules::RULES;
use oracle::settings::Settings;
use tools::generate::acting_shapes::acting_lets;
use tools::generate::boundaries::{normal_chain, with_inputs};
use tools::generate::ceilings::{ceiling_met_at, only_ceiling};
use tools::generate::damage::{apply_damages, damages};
use tools::generate::each::{all_sorts, each_sample};
use tools::generate::limits::Limits;
use tools::generate::steps::steps_of;
use tools::generate::Sample;
use tools::random::Random;

/// Walks of more steps are left out.
const MOST_STEPS: u32 = 60;
const NOTHING: Settings = Settings {
    budget: 0,
    ceilings: [0; 10],
};

/// The refusal and the counts; the buffers are as they should be.
fn refused(
    random: &mut Random,
    sample: &Sample,
    settings: Settings,
    capacity: usize,
) -> (u32, Counts) {
    let limits = Limits::with_settings(random, settings, capacity);
    let (answer, [output, first, second]) = outcome(sample, limits);
    assert!(output[answer.length..].iter().all(|&word| word == 9));
    assert!(first.iter().chain(&second).all(|&word| word == 0));
    if answer.refusal != 0 {
        assert_eq!((answer.type_number, answer.length), (0, 0));
    }
    (answer.refusal, answer.counts)
}

#[test]
fn ten_before_thirteen_before_eleven_at_each_step() {
    let (mut all, mut growing) = (0, 0);
    for (make, seed) in all_sorts(191) {
        each_sample(make, seed, 400, 40, |random, sample| {
            let Some(steps) = steps_of(&sample, MOST_STEPS) else {
                return;
            };
            let enough = steps.longest();
            for step in 0..steps.rules.len() {
                let counts = steps.counts_of_first(step);
                let spent = ceiling_met_at(step as u32, &steps, step);
                let met = ceiling_met_at(step as u32 + 1, &steps, step);
                assert_eq!(refused(random, &sample, spent, enough), (10, counts));
                assert_eq!(refused(random, &sample, met, enough), (13, counts));
                all += 1;
                let Some(short) = steps.capacity_met_at(step) else {
                    continue;
                };
                assert_eq!(refused(random, &sample, spent, short), (10, counts));
                assert_eq!(refused(random, &sample, met, short), (13, counts));
                let free = Settings::no_ceilings(met.budget);
                assert_eq!(refused(random, &sample, free, short), (11, counts));
                growing += 1;
            }
        });
    }
    assert!(all > 5000 && growing > 1000, "{all} steps, {growing} grow");
}

#[test]
fn a_ceiling_of_zero_refuses_only_if_its_rule_is_next() {
    let (mut met, mut unmet) = ([0; 10], [0; 10]);
    for (make, seed) in all_sorts(194) {
        each_sample(make, seed, 600, 40, |random, sample| {
            let Some(steps) = steps_of(&sample, MOST_STEPS) else {
                return;
            };
            for rule in RULES {
                let settings = only_ceiling(MOST_STEPS, rule, 0);
                let found = refused(random, &sample, settings, steps.longest());
                match steps.rules.iter().position(|&used| used == rule) {
                    Some(first) => {
                        assert_eq!(found, (13, steps.counts_of_first(first)));
                        met[rule as usize] += 1;
                    }
                    None => {
                        assert_eq!(found, (0, steps.counts()));
                        unmet[rule as usize] += 1;
                    }
                }
            }
        });
    }
    let enough = |numbers: [usize; 10]| numbers.iter().all(|&number| number > 100);
    assert!(enough(met) && enough(unmet), "{met:?}, {unmet:?}");
}

#[test]
fn the_length_of_the_input_comes_first() {
    let (mut refusals, mut normal) = ([0; 14], 0);
    for (make, seed) in all_sorts(197) {
        each_sample(make, seed, 1000, 30, |random, sample| {
            let length = sample.term.len();
            let short = refused(random, &sample, NOTHING, length - 1);
            assert_eq!(short, (11, [0; 10]));
            // With space for the input, a normal form needs no step, and any other term may take none.
            let is_normal = sample.is_normal().normal;
            let spent = refused(random, &sample, NOTHING, length);
            let one_step = Settings {
                budget: 1,
                ..NOTHING
            };
            let met = refused(random, &sample, one_step, length);
            let expected = if is_normal { [0, 0] } else { [10, 13] };
            assert_eq!([spent, met], expected.map(|refusal| (refusal, [0; 10])));
            normal += usize::from(is_normal);
            refusals[met.0 as usize] += 1;
        });
    }
    assert!(normal > 200 && refusals[13] > 1000, "{normal} normal forms");
}

#[test]
fn normal_forms_need_nothing() {
    let mut random = Random::new(200);
    for sample in [with_inputs(256), normal_chain(1000), acting_lets(2047)] {
        let length = sample.term.len();
        let found = refused(&mut random, &sample, NOTHING, length);
        assert_eq!(found, (0, [0; 10]));
    }
}

#[test]
fn one_to_nine_come_first() {
    let mut refusals = [0; 10];
    for (make, seed) in all_sorts(201) {
        each_sample(make, seed, 2000, 30, |random, mut sample| {
            let damage = *random.pick(&damages());
            let refusal = apply_damages(random, &mut sample, &[damage]);
            let capacity = random.below(40);
            let found = refused(random, &sample, NOTHING, capacity);
            assert_eq!(found, (refusal, [0; 10]), "{}", damage.name);
            refusals[refusal as usize] += 1;
        });
    }
    assert!(refusals[1..].iter().all(|&n| n > 50), "{refusals:?}");
}
