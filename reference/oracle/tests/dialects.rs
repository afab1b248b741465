//! The dialects beside one another: what one accepts keeps its answer in the next, and what it
//! refuses keeps that but for the words that the next one adds.

mod outcomes;

use oracle::dialect::Dialect;
use oracle::words::*;
use outcomes::{outcome, random_limits, Pairs};
use tools::generate::bundles::BUNDLE_DAMAGES;
use tools::generate::damage::{apply_damages, damages, flip_a_bit, Damage, DAMAGES};
use tools::generate::each::*;
use tools::generate::Sample;
use tools::random::Random;

const DIALECTS: [Dialect; 3] = [Dialect::Base, Dialect::Units, Dialect::Acting];

/// Whether some word has the kind of the unit type, or of its value.
fn has_unit_word(sample: &Sample) -> bool {
    let mut types = sample.types.iter().map(|&word| unpack_type(word).0);
    let mut nodes = sample.term.iter().map(|&word| unpack_term(word).0);
    types.any(|kind| kind == UNIT_TYPE) || nodes.any(|kind| kind == UNIT)
}

/// Whether some call word has the count of an acting call.
fn has_acting_count(sample: &Sample) -> bool {
    let mut counts = sample.calls.iter().map(|&word| unpack_call(word).0);
    counts.any(|count| (8..12).contains(&count))
}

/// All dialects have the same outcome for a sample with neither units nor acting calls.
fn check_base_sample(random: &mut Random, sample: &Sample) -> u32 {
    assert!(!has_unit_word(sample) && !has_acting_count(sample));
    let limits = random_limits(random);
    let base = outcome(Dialect::Base, sample, limits);
    for later in [Dialect::Units, Dialect::Acting] {
        assert_eq!(base, outcome(later, sample, limits));
    }
    base.normalized.refusal
}

#[test]
fn samples_of_the_base_dialect_have_their_old_outcomes() {
    let mut refusals = [0; 12];
    each_random_sample(61, 2500, 40, |random, sample| {
        refusals[check_base_sample(random, &sample) as usize] += 1;
    });
    each_sample_of_inputs(62, 400, 30, |random, sample| {
        refusals[check_base_sample(random, &sample) as usize] += 1;
    });
    assert!(refusals[1..10].iter().all(|&count| count == 0));
    assert!(refusals[0] > 1000 && refusals[10] > 100 && refusals[11] > 100);
}

#[test]
fn the_base_dialect_knows_no_unit() {
    for damage in DAMAGES.iter().filter(|damage| damage.is_small) {
        each_random_sample(63, 100, 30, |random, mut sample| {
            let refusal = apply_damages(random, &mut sample, &[damage]);
            let limits = random_limits(random);
            let base = outcome(Dialect::Base, &sample, limits);
            assert_eq!(base.checked.refusal, refusal, "{}", damage.name);
        });
    }
    each_unit_sample(64, 500, 30, |random, mut sample| {
        let limits = random_limits(random);
        let base = outcome(Dialect::Base, &sample, limits);
        assert_eq!(base.checked.refusal, 2);
        sample.types.retain(|&word| unpack_type(word).0 == BASE);
        sample.calls.clear();
        sample.inputs.clear();
        sample.term = vec![pack_term(UNIT, 0, 0)];
        let base = outcome(Dialect::Base, &sample, limits);
        assert_eq!(base.checked.refusal, 6);
    });
}

#[test]
fn damaged_bundles_are_refused_in_all() {
    for damage in BUNDLE_DAMAGES.iter().filter(|damage| damage.is_small) {
        each_unit_sample(67, 50, 30, |random, sample| {
            let mut bytes = sample.bundle();
            (damage.apply)(random, &mut bytes);
            for dialect in DIALECTS {
                assert!(dialect.respond(&bytes).starts_with(b"no 12 "));
            }
        });
    }
}

/// Most often puts in one fault or more.
fn damage_sample(random: &mut Random, sample: &mut Sample) {
    let all = DAMAGES.iter().chain(damages());
    let small: Vec<&Damage> = all.filter(|damage| damage.is_small).collect();
    for _ in 0..random.below(3) {
        let damage = *random.pick(&small);
        // Some faults need a sample that can be read.
        if sample.examine().is_ok() {
            (damage.apply)(random, sample);
        }
    }
    if random.chance(10) && !sample.term.is_empty() {
        let index = random.below(sample.term.len());
        sample.term[index] = pack_term(UNIT, 0, random.below(sample.types.len()) as u64);
    }
    for _ in 0..random.below(3) {
        flip_a_bit(random, sample);
    }
}

/// The base dialect beside the one with units.
fn compare_units(random: &mut Random, sample: &Sample, pairs: &mut Pairs) {
    let limits = random_limits(random);
    let base = outcome(Dialect::Base, sample, limits);
    let now = outcome(Dialect::Units, sample, limits);
    let (before, after) = (base.refusal(), now.refusal());
    *pairs.entry((before, after)).or_default() += 1;
    let is_same = match before {
        2 => !sample.types.contains(&pack_type(UNIT_TYPE, 0, 0)),
        6 => sample.term.iter().all(|&word| unpack_term(word).0 != UNIT),
        _ => true,
    };
    if is_same {
        assert_eq!(base, now);
    } else {
        // What was 6 has no unit type, so its units have no type: it is not accepted.
        let can_be = if before == 2 {
            after == 0 || after >= 2
        } else {
            after >= 6
        };
        assert!(can_be, "{before}, {after}");
    }
}

#[test]
fn units_change_the_refusals_2_and_6_alone() {
    let mut pairs = Pairs::new();
    each_random_sample(65, 8000, 30, |random, mut sample| {
        damage_sample(random, &mut sample);
        compare_units(random, &sample, &mut pairs);
    });
    each_unit_sample(66, 8000, 30, |random, mut sample| {
        damage_sample(random, &mut sample);
        compare_units(random, &sample, &mut pairs);
    });
    for same in 0..10 {
        assert!(pairs[&(same, same)] > 20, "{pairs:?}");
    }
    for later in [0, 3, 4, 5, 6, 7, 8, 9] {
        assert!(pairs[&(2, later)] > 10, "{pairs:?}");
    }
    assert!(pairs[&(6, 7)] > 10 && pairs[&(6, 9)] > 10, "{pairs:?}");
    let others = pairs.keys().filter(|(before, after)| before != after);
    assert!(others
        .into_iter()
        .all(|(before, _)| [2, 6].contains(before)));
}

/// The dialect with units beside the one with acting calls too.
fn compare_acting(random: &mut Random, sample: &Sample, pairs: &mut Pairs) {
    let limits = random_limits(random);
    let units = outcome(Dialect::Units, sample, limits);
    let now = outcome(Dialect::Acting, sample, limits);
    let (before, after) = (units.refusal(), now.refusal());
    *pairs.entry((before, after)).or_default() += 1;
    if has_acting_count(sample) {
        assert!((1..=4).contains(&before), "{before}");
    }
    if before != 4 || !has_acting_count(sample) {
        assert_eq!(units, now);
    } else {
        assert!(after == 0 || after >= 4, "{after}");
    }
}

#[test]
fn acting_calls_change_the_refusal_4_alone() {
    let mut pairs = Pairs::new();
    each_random_sample(68, 4000, 30, |random, mut sample| {
        damage_sample(random, &mut sample);
        compare_acting(random, &sample, &mut pairs);
    });
    each_acting_sample(69, 12_000, 30, |random, mut sample| {
        damage_sample(random, &mut sample);
        compare_acting(random, &sample, &mut pairs);
    });
    for same in 0..10 {
        assert!(pairs[&(same, same)] > 20, "{pairs:?}");
    }
    for later in [0, 5, 6, 7, 8, 9] {
        assert!(pairs[&(4, later)] > 20, "{pairs:?}");
    }
    let mut others = pairs.keys().filter(|(before, after)| before != after);
    assert!(others.all(|(before, _)| *before == 4), "{pairs:?}");
}

#[test]
fn without_an_acting_call_nothing_changes() {
    let (mut accepted, mut refused) = (0, 0);
    let mut check = |random: &mut Random, sample: &Sample| {
        if has_acting_count(sample) {
            return;
        }
        let limits = random_limits(random);
        let units = outcome(Dialect::Units, sample, limits);
        assert_eq!(units, outcome(Dialect::Acting, sample, limits));
        match units.refusal() {
            0 => accepted += 1,
            _ => refused += 1,
        }
    };
    each_acting_sample(70, 6000, 40, |random, mut sample| {
        check(random, &sample);
        damage_sample(random, &mut sample);
        check(random, &sample);
    });
    assert!(accepted > 2000 && refused > 300, "{accepted}, {refused}");
}

#[test]
fn earlier_dialects_know_no_acting_call() {
    let mut refused = 0;
    each_acting_sample(71, 2000, 30, |random, sample| {
        if !sample.has_acting_call() {
            return;
        }
        let limits = random_limits(random);
        assert_eq!(outcome(Dialect::Units, &sample, limits).refusal(), 4);
        // The type table is checked before.
        let expected = if has_unit_word(&sample) { 2 } else { 4 };
        assert_eq!(outcome(Dialect::Base, &sample, limits).refusal(), expected);
        assert_eq!(outcome(Dialect::Acting, &sample, limits).refusal(), 0);
        refused += 1;
    });
    assert!(refused > 1000, "{refused} refused");
}
