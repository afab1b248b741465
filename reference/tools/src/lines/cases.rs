//! Lines of `cases SEED COUNT`: small samples with the answers of normalize, check, is_normal and
//! free_inputs.
//!
//! One case a line, fields separated by `;`, lists of decimal words separated by spaces:
//!
//! `types;calls;inputs;term;budget;output_length;first_scratch_length;second_scratch_length;
//! refusal;type;length;counts;normal_form;check_refusal;check_type;normal_refusal;normal_yes;
//! inputs_refusal;inputs_count;inputs_marks`
//!
//! (in one line). The four tables come first; then what normalize is lent; then its answer, with
//! ten counts and the normal form's words (empty unless accepted); then the answers of check, of
//! is_normal (0 or 1) and of free_inputs (the marks are four words) on the same tables and term.
//! The output and the scratch buffers are as long as the line says; on acceptance the normal form
//! fills the output's front.

use super::{spaced, Additions, LONGEST_TERM};
use crate::generate::acting_damage::ACTING_DAMAGES;
use crate::generate::damage::{apply_damages, Damage, DAMAGES};
use crate::generate::terms::random_sample;
use crate::generate::unit_damage::UNIT_DAMAGES;
use crate::generate::{Profile, Sample};
use crate::random::Random;
use oracle::api::normalize;
use oracle::free_inputs::free_inputs;
use oracle::reduction::sequence;
use oracle::settings::Settings;
use oracle::term::Term;

const AMPLE_BUDGET: usize = 1000;
const AMPLE_CAPACITY: usize = 300;
const MOST_WORDS_LISTED: usize = 20_000;

/// What is lent to normalize besides the tables.
struct Limits {
    budget: usize,
    lengths: [usize; 3],
}

/// The line of one random case.
pub fn case_line(random: &mut Random, additions: Additions) -> String {
    let (sample, limits) = match random.below(12) {
        0..4 => {
            let sample = small_sample(random, additions);
            let limits = ample_limits(random);
            (sample, limits)
        }
        4..7 => {
            let sample = small_sample(random, additions);
            let limits = tight_limits(random, &sample);
            (sample, limits)
        }
        _ => {
            let sample = damaged_sample(random, additions);
            let limits = if random.chance(50) {
                ample_limits(random)
            } else {
                small_limits(random)
            };
            (sample, limits)
        }
    };
    line(&sample, &limits)
}

/// A well-typed small sample.
pub fn small_sample(random: &mut Random, additions: Additions) -> Sample {
    sample_within(random, additions.to(Profile::SMALL))
}

/// A well-typed sample with a short term, in half of the cases with demand 3's premise; if so asked,
/// with a call that acts.
fn sample_within(random: &mut Random, profile: Profile) -> Sample {
    loop {
        let profile = if random.chance(50) {
            profile
        } else {
            profile.first_order()
        };
        let sample = random_sample(random, &profile);
        let has_calls = !profile.acting || sample.has_acting_call();
        if sample.term.len() <= LONGEST_TERM && has_calls {
            return sample;
        }
    }
}

/// A small sample with one fault, or two under different numbers.
pub fn damaged_sample(random: &mut Random, additions: Additions) -> Sample {
    let first = random_damage(random, additions);
    let second = random_damage(random, additions);
    let mut sample = sample_within(random, additions.to(Profile::SMALLER));
    if first.refusal != second.refusal && random.chance(25) {
        apply_damages(random, &mut sample, &[first, second]);
    } else {
        apply_damages(random, &mut sample, &[first]);
    }
    sample
}

/// A fault of acting calls or of units, or one of the base dialect that leaves samples small; there
/// all numbers are equally likely.
fn random_damage(random: &mut Random, additions: Additions) -> &'static Damage {
    if additions.acting {
        return random.pick(ACTING_DAMAGES);
    }
    if additions.units {
        return random.pick(UNIT_DAMAGES);
    }
    let refusal = random.between(1, 9) as u32;
    let candidates: Vec<&'static Damage> = DAMAGES
        .iter()
        .filter(|damage| damage.is_small && damage.refusal == refusal)
        .collect();
    candidates[random.below(candidates.len())]
}

fn ample_limits(random: &mut Random) -> Limits {
    Limits {
        budget: AMPLE_BUDGET,
        lengths: lengths_with_capacity(random, AMPLE_CAPACITY),
    }
}

fn small_limits(random: &mut Random) -> Limits {
    let capacity = random.between(0, 30);
    Limits {
        budget: random.between(0, 10),
        lengths: lengths_with_capacity(random, capacity),
    }
}

/// Three lengths of which the shortest is the capacity.
pub fn lengths_with_capacity(random: &mut Random, capacity: usize) -> [usize; 3] {
    let mut lengths = [0; 3].map(|_: usize| capacity + random.below(4));
    lengths[random.below(3)] = capacity;
    lengths
}

/// Limits near what the walk needs: exactly enough, one less, or less.
fn tight_limits(random: &mut Random, sample: &Sample) -> Limits {
    let (steps, capacity) = needs(sample);
    let budget = near(random, steps);
    let capacity = near(random, capacity);
    Limits {
        budget,
        lengths: lengths_with_capacity(random, capacity),
    }
}

fn near(random: &mut Random, needed: usize) -> usize {
    match random.below(5) {
        0..3 => needed,
        3 => needed.saturating_sub(1),
        _ => random.between(0, needed),
    }
}

/// The steps of the walk and its longest term, or what is ample if the walk is too long.
fn needs(sample: &Sample) -> (usize, usize) {
    let checked = sample.examine().ok();
    let listed =
        checked.and_then(|checked| sequence(&checked.tables, &checked.term, MOST_WORDS_LISTED));
    match listed {
        Some(listed) => {
            let longest = listed.terms.iter().map(Term::size).max();
            let longest = longest.expect("a walk has a first term");
            (listed.rules.len(), longest.min(AMPLE_CAPACITY))
        }
        None => (AMPLE_BUDGET, AMPLE_CAPACITY),
    }
}

fn line(sample: &Sample, limits: &Limits) -> String {
    let Sample {
        types,
        calls,
        inputs,
        term,
    } = sample;
    let mut buffers = limits.lengths.map(|length| vec![0; length]);
    let settings = Settings::no_ceilings(limits.budget as u32);
    let answer = sample.normalize(normalize, settings, &mut buffers);
    let checked = sample.check();
    let normal = sample.is_normal();
    let read = sample.free_inputs(free_inputs);
    [
        spaced(types),
        spaced(calls),
        spaced(inputs),
        spaced(term),
        limits.budget.to_string(),
        limits.lengths[0].to_string(),
        limits.lengths[1].to_string(),
        limits.lengths[2].to_string(),
        answer.refusal.to_string(),
        answer.type_number.to_string(),
        answer.length.to_string(),
        spaced(answer.counts),
        spaced(&buffers[0][..answer.length]),
        checked.refusal.to_string(),
        checked.type_number.to_string(),
        normal.refusal.to_string(),
        u8::from(normal.normal).to_string(),
        read.refusal.to_string(),
        read.count.to_string(),
        spaced(read.marks),
    ]
    .join(";")
}
