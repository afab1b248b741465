//! The call free_inputs: the marks are the inputs that variables name, by four other ways to find
//! them.

use oracle::coding::encode;
use oracle::free_inputs::{free_inputs, FreeInputs};
use oracle::substitution::{occurrences, raise};
use oracle::term::Term;
use std::collections::BTreeSet;
use tools::generate::boundaries::with_inputs;
use tools::generate::each::{each_acting_sample, each_random_sample, each_sample_of_inputs};
use tools::generate::examples::examples;
use tools::generate::inputs::*;
use tools::generate::long_readings::longest_readings;
use tools::generate::Sample;
use tools::random::Random;

const HIGHEST: u64 = 0x8000_0000_0000_0000;

/// The inputs that are marked: the marks are read as one row of 256 bits.
fn marked(answer: &FreeInputs) -> BTreeSet<u64> {
    let row: String = answer.marks.iter().map(|w| format!("{w:064b}")).collect();
    let bits = (0..).zip(row.chars());
    bits.filter_map(|(input, bit)| (bit == '1').then_some(input))
        .collect()
}

/// The inputs that variables name, read off the words of an accepted sample by hand.
fn named(sample: &Sample) -> BTreeSet<u64> {
    let mut named = BTreeSet::new();
    // The binders around each part to come, the next part last.
    let mut depths = vec![0];
    for &word in &sample.term {
        let depth = depths.pop().expect("a part to come");
        let number = word >> 30 & 0x3fff_ffff;
        let binders_from_the_last_part: &[u64] = match word >> 60 {
            0 | 11 => &[],
            // Eight more in the count say that the call acts.
            1 => &[0; 3][..(sample.calls[number as usize] >> 60 & 7) as usize],
            2 => &[1],
            4 => &[1, 0],
            3 | 5 => &[0, 0],
            6..=9 => &[0],
            _ => &[1, 1, 0],
        };
        if word >> 60 == 0 && number >= depth {
            named.insert(number - depth);
        }
        let parts = binders_from_the_last_part.iter();
        depths.extend(parts.map(|binders| depth + binders));
    }
    named
}

/// Whether it changes the term to rename this input together with all inputs after it, and not
/// only those after it.
fn is_renamed(term: &Term, input: u32) -> bool {
    let (mut with_it, mut without_it) = (term.clone(), term.clone());
    raise(&mut with_it, 1, input);
    raise(&mut without_it, 1, input + 1);
    encode(&with_it) != encode(&without_it)
}

/// Checks an accepted sample in each way; answers the inputs marked.
fn check_marks(sample: &Sample) -> BTreeSet<u64> {
    let answer = sample.free_inputs(free_inputs);
    assert_eq!(answer.refusal, 0);
    let marked = marked(&answer);
    assert_eq!(answer.count as usize, marked.len());
    assert_eq!(marked, named(sample));
    let inputs = sample.inputs.len() as u64;
    assert!(marked.iter().all(|&input| input < inputs));
    marked
}

#[test]
fn marks_by_hand() {
    let of_inputs = |count: usize, term: &[u64]| Sample {
        inputs: vec![0; count],
        term: term.to_vec(),
        ..with_inputs(1)
    };
    let variable = |number: u64| number << 30;
    let (call_c, call_d, let_in) = (1 << 60, 1 << 60 | 1 << 30, 4 << 60);
    for (sample, marks, count) in [
        (of_inputs(1, &[variable(0)]), [HIGHEST, 0, 0, 0], 1),
        (of_inputs(256, &[variable(0)]), [HIGHEST, 0, 0, 0], 1),
        (of_inputs(256, &[variable(1)]), [HIGHEST >> 1, 0, 0, 0], 1),
        (of_inputs(64, &[variable(63)]), [1, 0, 0, 0], 1),
        (of_inputs(65, &[variable(64)]), [0, HIGHEST, 0, 0], 1),
        (of_inputs(256, &[variable(127)]), [0, 1, 0, 0], 1),
        (of_inputs(256, &[variable(128)]), [0, 0, HIGHEST, 0], 1),
        (of_inputs(256, &[variable(191)]), [0, 0, 1, 0], 1),
        (of_inputs(256, &[variable(192)]), [0, 0, 0, HIGHEST], 1),
        (of_inputs(256, &[variable(255)]), [0, 0, 0, 1], 1),
        (of_inputs(256, &[call_c]), [0; 4], 0),
        (of_inputs(0, &[call_c]), [0; 4], 0),
        // let c, v0 and let c, v1
        (of_inputs(9, &[let_in, call_c, variable(0)]), [0; 4], 0),
        (
            of_inputs(9, &[let_in, call_c, variable(1)]),
            [HIGHEST, 0, 0, 0],
            1,
        ),
        // let v1, d v1: inputs 1 and 0; an unused let reads too.
        (
            of_inputs(9, &[let_in, variable(1), call_d, variable(1)]),
            [0xc000_0000_0000_0000, 0, 0, 0],
            2,
        ),
        // let v64, let v64, v65: inputs 64, 63 and 63 again.
        (
            of_inputs(
                256,
                &[let_in, variable(64), let_in, variable(64), variable(65)],
            ),
            [1, HIGHEST, 0, 0],
            2,
        ),
    ] {
        let expected = FreeInputs {
            refusal: 0,
            marks,
            count,
        };
        let found = sample.free_inputs(free_inputs);
        assert_eq!(found, expected, "{:x?}", sample.term);
    }
}

#[test]
fn the_shipped_examples_read_all_their_inputs() {
    for example in examples() {
        let marked = check_marks(&example.sample);
        let inputs = 0..example.sample.inputs.len() as u64;
        assert_eq!(marked, inputs.collect(), "{}", example.name);
    }
}

#[test]
fn what_was_put_in_is_marked() {
    let mut readings = border_readings();
    readings.extend(place_readings());
    readings.extend(whole_readings());
    let mut random = Random::new(41);
    readings.extend((0..3000).map(|_| random_reading(&mut random, 8, 8)));
    for Reading { sample, inputs } in readings {
        assert_eq!(check_marks(&sample), inputs);
    }
    let all: BTreeSet<u64> = (0..256).collect();
    for shape in longest_readings() {
        assert_eq!(shape.sample.term.len(), 8192);
        assert_eq!(check_marks(&shape.sample), all, "{}", shape.name);
    }
}

#[test]
fn the_marks_are_the_inputs_that_variables_name() {
    let (mut total, mut unmarked) = (0, 0);
    each_sample_of_inputs(42, 1200, 150, |_, sample| {
        let marked = check_marks(&sample);
        let checked = sample.examine().expect("generated samples are well typed");
        for input in 0..sample.inputs.len() as u32 {
            let is_marked = marked.contains(&input.into());
            assert_eq!(is_renamed(&checked.term, input), is_marked);
            assert_eq!(occurrences(&checked.term, input) > 0, is_marked);
            unmarked += usize::from(!is_marked);
        }
        total += marked.len();
    });
    assert!(total > 5000 && unmarked > 50_000, "{total} and {unmarked}");
}

#[test]
fn samples_of_few_inputs() {
    each_random_sample(43, 3000, 150, |_, sample| {
        check_marks(&sample);
    });
    // By turns with units and with calls that act.
    each_acting_sample(44, 3000, 150, |_, sample| {
        check_marks(&sample);
    });
}
