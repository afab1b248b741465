//! Refusals of calls that act: their counts, fields and arguments, and their order among the others.

mod refused;

use oracle::words::*;
use refused::*;
use tools::generate::acting_damage::{broken_acting_samples, ACTING_DAMAGES};
use tools::generate::acting_shapes::{acting_shapes_of, nested_stamps};
use tools::generate::each::{acting_sample, each_acting_sample};
use tools::generate::phrases::*;
use tools::generate::Sample;

/// Four base types, one call, one input of each type, and the call on so many inputs, the first one
/// first.
fn one_call(word: u64, given: usize) -> Sample {
    let mut term = call(0, &[]);
    term.extend((0..given as u64).flat_map(variable));
    Sample {
        types: (0..4).map(|name| pack_type(BASE, name, 0)).collect(),
        calls: vec![word],
        inputs: vec![0, 1, 2, 3],
        term,
    }
}

/// The numbers of arguments, in order, of the counts 0 to 3 and 8 to 11.
const COUNTS: [(u64, usize); 8] = [
    (0, 0),
    (1, 1),
    (2, 2),
    (3, 3),
    (8, 0),
    (9, 1),
    (10, 2),
    (11, 3),
];

#[test]
fn the_words_are_those_of_the_paper() {
    assert_eq!(pack_call(ACTING, 2, [0; 3]), 8 << 60 | 2 << 45);
    let word = 11 << 60 | 3 << 45 | 1 << 15 | 2;
    assert_eq!(pack_call(ACTING + 3, 3, [0, 1, 2]), word);
    let answer = one_call(word, 3).check();
    assert_eq!((answer.refusal, answer.type_number), (0, 3));
}

#[test]
fn every_count_says_how_many_arguments_there_are() {
    for count in 0..16 {
        let known = COUNTS.iter().find(|(other, _)| *other == count);
        assert_eq!(read_count(count).map(|read| read.0), known.map(|k| k.1));
        assert_eq!(
            read_count(count).map(|read| read.1),
            known.map(|_| count > 7)
        );
        for given in 0..=4 {
            // Argument n has type n, as has input n.
            let mut types = [0, 1, 2];
            types[known.map_or(0, |k| k.1)..].fill(0);
            let found = refusal(&one_call(pack_call(count, 0, types), given));
            let expected = match known {
                None => 4,
                Some((_, arguments)) if given == *arguments => 0,
                Some(_) => 7,
            };
            assert_eq!(found, expected, "count {count} on {given}");
        }
    }
}

#[test]
fn every_field_is_checked() {
    for (count, arguments) in COUNTS {
        for field in 0..3 {
            for bit in 0..15 {
                let mut types = [0; 3];
                types[field] = 1 << bit;
                let sample = one_call(pack_call(count, 0, types), arguments);
                let is_known = field < arguments && bit < 2;
                let fits = (0..arguments).all(|place| types[place] == place as u64);
                let expected = match (is_known, fits) {
                    (false, _) => 4,
                    (true, false) => 9,
                    (true, true) => 0,
                };
                assert_eq!(refusal(&sample), expected, "{count}, {field}, {bit}");
            }
        }
        for result in [0, 3, 4, 5, 1 << 14, (1 << 15) - 1] {
            let mut types = [0, 1, 2];
            types[arguments..].fill(0);
            let sample = one_call(pack_call(count, result, types), arguments);
            let expected = if result < 4 { 0 } else { 4 };
            assert_eq!(refusal(&sample), expected);
        }
    }
}

#[test]
fn the_call_table_comes_after_the_types_and_before_the_inputs() {
    let sample = one_call(pack_call(12, 0, [0; 3]), 0);
    let twice = Sample {
        types: vec![0, 0],
        ..sample.clone()
    };
    assert_eq!(refusal(&twice), 3);
    let no_input = Sample {
        inputs: vec![9],
        ..sample.clone()
    };
    assert_eq!(refusal(&no_input), 4);
    // The whole table is looked at, be a call named or not.
    let later = Sample {
        calls: [sample.calls.clone(), vec![pack_call(ACTING, 0, [0; 3])]].concat(),
        term: call(1, &[]),
        ..sample
    };
    assert_eq!(refusal(&later), 4);
}

#[test]
fn ill_typed_calls() {
    check_ill_typed(broken_acting_samples());
}

#[test]
fn damages_of_samples_with_acting_calls() {
    check_damages(acting_sample, [102, 103], ACTING_DAMAGES);
}

#[test]
fn a_field_past_the_arguments_may_not_name_a_known_type_either() {
    let mut known = 0;
    let past = ACTING_DAMAGES
        .iter()
        .filter(|damage| damage.name.contains(" past "));
    for damage in past {
        each_acting_sample(105, 200, 30, |random, mut sample| {
            (damage.apply)(random, &mut sample);
            assert_eq!(refusal(&sample), 4, "{}", damage.name);
            let types = sample.types.len() as u64;
            let mut fields = sample.calls.iter().map(|&word| unpack_call(word).2);
            known += usize::from(fields.all(|fields| fields.iter().all(|&field| field < types)));
        });
    }
    // A reader that took all three fields for arguments would not refuse these.
    assert!(known > 200, "{known} with known types");
}

#[test]
fn flipped_bits() {
    check_flipped_bits(acting_sample, 104);
}

#[test]
fn lengths_at_their_limits() {
    let unused = let_in(&call(0, &[]), &Phrase::new());
    for shape in acting_shapes_of(8192) {
        let mut sample = shape.sample;
        assert!(sample.term.len() > 8186, "{}", shape.name);
        assert_eq!(refusal(&sample), 0, "{}", shape.name);
        while sample.term.len() <= 8192 {
            sample.term.splice(0..0, unused.clone());
        }
        assert_eq!(refusal(&sample), 1, "{}", shape.name);
    }
    assert_eq!(refusal(&nested_stamps(8192)), 0);
    assert_eq!(refusal(&nested_stamps(8193)), 1);
}
