//! Readings of the ceilings over the list of a walk's steps: the right one, and wrong ones.

use oracle::reduction::Counts;
use oracle::rules::Rule;
use oracle::settings::Settings;
use tools::generate::steps::Steps;

/// The refusal, 0 if there is none, and the counts.
pub type Outcome = (u32, Counts);
pub type Reading = fn(&Steps, Settings, usize) -> Outcome;
/// Whether a ceiling refuses the next step, by this rule, after the steps counted.
type Met = fn(Rule, &Counts, &[u32; 10]) -> bool;

/// At each step the three refusals in this order, with ceilings read so.
fn read(order: [u32; 3], met: Met, steps: &Steps, settings: Settings, capacity: usize) -> Outcome {
    let mut counts = [0; 10];
    if steps.lengths[0] > capacity {
        return (11, counts);
    }
    for (step, &rule) in steps.rules.iter().enumerate() {
        for refusal in order {
            let falls = match refusal {
                10 => step == settings.budget as usize,
                13 => met(rule, &counts, &settings.ceilings),
                _ => steps.lengths[step + 1] > capacity,
            };
            if falls {
                return (refusal, counts);
            }
        }
        counts[rule as usize] += 1;
    }
    (0, counts)
}

const ORDER: [u32; 3] = [10, 13, 11];

/// The reading of the request, written a second time.
pub fn right(steps: &Steps, settings: Settings, capacity: usize) -> Outcome {
    read(ORDER, is_met, steps, settings, capacity)
}

fn is_met(rule: Rule, counts: &Counts, ceilings: &[u32; 10]) -> bool {
    counts[rule as usize] == ceilings[rule as usize]
}

fn is_passed(counts: &Counts, ceilings: &[u32; 10]) -> bool {
    counts.iter().zip(ceilings).any(|(uses, most)| uses > most)
}

fn phase(rule: Rule) -> usize {
    match rule {
        Rule::LetInsertion => 0,
        Rule::Drop => 2,
        _ => 1,
    }
}

/// Each with its name and the bounds that it must at least differ on.
pub const WRONG: [(&str, usize, Reading); 17] = [
    ("13 before 10", 5000, |steps, settings, capacity| {
        read([13, 10, 11], is_met, steps, settings, capacity)
    }),
    ("11 before 13", 2000, |steps, settings, capacity| {
        read([10, 11, 13], is_met, steps, settings, capacity)
    }),
    ("11 before 10", 3000, |steps, settings, capacity| {
        read([11, 10, 13], is_met, steps, settings, capacity)
    }),
    (
        "13 before the input's length",
        2000,
        |steps, settings, capacity| {
            let first = steps.rules.first();
            let is_met_first =
                first.is_some_and(|&rule| is_met(rule, &[0; 10], &settings.ceilings));
            if is_met_first && steps.lengths[0] > capacity {
                return (13, [0; 10]);
            }
            right(steps, settings, capacity)
        },
    ),
    (
        "the next rule's ceiling",
        20_000,
        |steps, settings, capacity| {
            let next: Met = |rule, counts, ceilings| {
                counts[rule as usize] == ceilings[(rule as usize + 1) % 10]
            };
            read(ORDER, next, steps, settings, capacity)
        },
    ),
    (
        "the ceilings from last to first",
        20_000,
        |steps, settings, capacity| {
            let reversed: Met =
                |rule, counts, ceilings| counts[rule as usize] >= ceilings[9 - rule as usize];
            read(ORDER, reversed, steps, settings, capacity)
        },
    ),
    ("one use too many", 20_000, |steps, settings, capacity| {
        let later: Met = |rule, counts, ceilings| counts[rule as usize] > ceilings[rule as usize];
        read(ORDER, later, steps, settings, capacity)
    }),
    ("one use too few", 20_000, |steps, settings, capacity| {
        let earlier: Met =
            |rule, counts, ceilings| counts[rule as usize] + 1 >= ceilings[rule as usize];
        read(ORDER, earlier, steps, settings, capacity)
    }),
    ("any rule's ceiling", 20_000, |steps, settings, capacity| {
        let any: Met = |_, counts, ceilings| {
            let mut uses = counts.iter().zip(ceilings);
            uses.any(|(uses, ceiling)| uses >= ceiling)
        };
        read(ORDER, any, steps, settings, capacity)
    }),
    (
        "any used rule's ceiling",
        10_000,
        |steps, settings, capacity| {
            let any: Met = |rule, counts, ceilings| {
                let mut uses = counts.iter().zip(ceilings);
                is_met(rule, counts, ceilings)
                    || uses.any(|(&uses, &most)| uses > 0 && uses >= most)
            };
            read(ORDER, any, steps, settings, capacity)
        },
    ),
    (
        "all steps against the rule's ceiling",
        10_000,
        |steps, settings, capacity| {
            let all: Met =
                |rule, counts, ceilings| counts.iter().sum::<u32>() >= ceilings[rule as usize];
            read(ORDER, all, steps, settings, capacity)
        },
    ),
    ("zero is no ceiling", 10_000, |steps, settings, capacity| {
        let unless_zero: Met =
            |rule, counts, ceilings| ceilings[rule as usize] > 0 && is_met(rule, counts, ceilings);
        read(ORDER, unless_zero, steps, settings, capacity)
    }),
    (
        "refused when it is reached",
        10_000,
        |steps, settings, capacity| {
            let (refusal, counts) = read(ORDER, |_, _, _| false, steps, settings, capacity);
            let taken: u32 = counts.iter().sum();
            for end in 1..=taken as usize {
                let counts = steps.counts_of_first(end);
                let rule = steps.rules[end - 1] as usize;
                if counts[rule] >= settings.ceilings[rule] {
                    return (13, counts);
                }
            }
            (refusal, counts)
        },
    ),
    (
        "the refused step is counted",
        20_000,
        |steps, settings, capacity| match right(steps, settings, capacity) {
            (13, mut counts) => {
                let taken: u32 = counts.iter().sum();
                counts[steps.rules[taken as usize] as usize] += 1;
                (13, counts)
            }
            other => other,
        },
    ),
    (
        "no counts",
        10_000,
        |steps, settings, capacity| match right(steps, settings, capacity) {
            (13, _) => (13, [0; 10]),
            other => other,
        },
    ),
    (
        "looked at at a phase's end",
        20_000,
        |steps, settings, capacity| {
            let (refusal, counts) = read(ORDER, |_, _, _| false, steps, settings, capacity);
            let taken: u32 = counts.iter().sum();
            let all = steps.rules.len();
            let ends = (1..=taken as usize).filter(|&end| {
                end == all || phase(steps.rules[end - 1]) != phase(steps.rules[end])
            });
            for end in ends {
                let counts = steps.counts_of_first(end);
                if is_passed(&counts, &settings.ceilings) {
                    return (13, counts);
                }
            }
            (refusal, counts)
        },
    ),
    (
        "looked at at the walk's end",
        20_000,
        |steps, settings, capacity| match read(ORDER, |_, _, _| false, steps, settings, capacity) {
            (0, counts) if is_passed(&counts, &settings.ceilings) => (13, counts),
            other => other,
        },
    ),
];
