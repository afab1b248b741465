//! The records with ceilings: how they are written, and what they cover.

use oracle::deep_stack::with_deep_stack;
use std::collections::BTreeSet;
use tools::corpus::answers::answer;
use tools::corpus::contents::records;
use tools::corpus::records::Record;
use tools::generate::ceiling_shapes::each_rule_once;
use tools::generate::limits::Limits;
use tools::generate::steps::steps_of;
use tools::generate::Sample;

/// The records with ceilings.
fn with_ceilings() -> Vec<(Sample, Limits)> {
    let all = records().into_iter().filter_map(|record| match record {
        Record::Normalize(sample, limits) => Some((sample, limits)),
        _ => None,
    });
    let limited = all.filter(|(_, limits)| !limits.settings.has_no_ceilings());
    limited.collect()
}

fn words(record: &Record) -> Vec<u64> {
    let mut bytes = Vec::new();
    record.write(&mut bytes);
    let (words, rest) = bytes.as_chunks::<8>();
    assert!(rest.is_empty());
    words.iter().map(|&word| u64::from_be_bytes(word)).collect()
}

#[test]
fn ceilings_stand_between_the_header_and_the_tables() {
    let sample = each_rule_once();
    let mut limits = Limits::with_budget(7);
    let former = words(&Record::Normalize(sample.clone(), limits));
    assert_eq!(former[..2], [3, 7]);
    limits.settings.ceilings = [u32::MAX, 1, 2, 3, 4, 5, 6, 7, 8, 0];
    let found = words(&Record::Normalize(sample.clone(), limits));
    assert_eq!(found[0], 5);
    assert_eq!(found[1..10], former[1..10]);
    let ceilings = [4_294_967_295, 1, 2, 3, 4, 5, 6, 7, 8, 0];
    assert_eq!(found[10..20], ceilings);
    assert_eq!(found[20..], former[10..]);
    assert_eq!(found.len(), 20 + sample.words());
    limits.settings.ceilings = [u32::MAX; 10];
    assert_eq!(words(&Record::Normalize(sample, limits)), former);
}

#[test]
fn they_stand_behind_all_others() {
    let all = records();
    let limited = with_ceilings().len();
    assert!((200..=300).contains(&limited), "{limited} records");
    for record in &all[all.len() - limited..] {
        assert_eq!(words(record)[0], 5);
    }
}

/// The refusal and the number of steps taken, as the answer says.
fn refusal_and_steps(sample: &Sample, limits: Limits) -> (u32, usize) {
    let line = answer(&Record::Normalize(sample.clone(), limits));
    let line = String::from_utf8(line).expect("answers are text");
    let fields: Vec<&str> = line.split_whitespace().collect();
    let refusal = fields[1].parse().expect("a refusal number");
    let counts = fields[4..14].iter().map(|count| count.parse::<usize>());
    let counts = counts.map(|count| count.expect("a count"));
    (refusal, counts.sum())
}

#[test]
fn every_way_to_meet_a_ceiling_is_covered() {
    let (mut rules, mut places) = (BTreeSet::new(), BTreeSet::new());
    let (mut refusals, mut together) = (BTreeSet::new(), BTreeSet::new());
    with_deep_stack(|| {
        for (sample, limits) in with_ceilings() {
            let (refusal, taken) = refusal_and_steps(&sample, limits);
            refusals.insert(refusal);
            let Some(steps) = steps_of(&sample, 10_000) else {
                continue;
            };
            let capacity = *limits.lengths.iter().min().expect("three lengths");
            if steps.lengths[0] > capacity {
                assert_eq!((refusal, taken), (11, 0));
                together.insert("the input's length");
                continue;
            }
            let Some(&rule) = steps.rules.get(taken) else {
                assert_eq!(refusal, 0);
                continue;
            };
            let used = steps.counts_of_first(taken)[rule as usize];
            let is_met = used == limits.settings.ceilings[rule as usize];
            let has_space = steps.lengths[taken + 1] <= capacity;
            match (refusal, is_met, has_space) {
                (10, true, true) => together.insert("10 and 13"),
                (10, true, false) => together.insert("all three"),
                (13, true, false) => together.insert("13 and 11"),
                (10, false, _) | (13, true, true) | (11, false, false) => false,
                _ => panic!("{refusal} after {taken} steps"),
            };
            if refusal == 13 {
                rules.insert(rule as usize);
                places.insert(match taken {
                    0 => "first",
                    _ if taken + 1 == steps.rules.len() => "last",
                    _ => "middle",
                });
            }
        }
    });
    assert_eq!(refusals, (0..12).chain([13]).collect());
    assert_eq!(rules, (0..10).collect());
    assert_eq!(places, BTreeSet::from(["first", "last", "middle"]));
    let expected = ["10 and 13", "13 and 11", "all three", "the input's length"];
    assert_eq!(together, BTreeSet::from(expected));
}
