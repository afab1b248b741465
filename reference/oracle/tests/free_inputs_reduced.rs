//! Reduction reads no further input: one without a mark has none on the walk and in the normal form.

use oracle::coding::encode;
use oracle::free_inputs::{free_inputs, inputs_read, FreeInputs};
use oracle::reduction::{sequence, walk};
use oracle::settings::Settings;
use oracle::term::Term;
use tools::generate::each::each_sample_of_inputs;
use tools::generate::inputs::{random_places, read_at};
use tools::generate::places::{Place, PLACES};
use tools::generate::Sample;
use tools::random::Random;

/// The answer for the sample with this term in place of its own.
fn answer_for(sample: &Sample, term: &Term) -> FreeInputs {
    let later = Sample {
        term: encode(term),
        ..sample.clone()
    };
    later.free_inputs(free_inputs)
}

/// Both are accepted, and the later term has no mark that the earlier one has not.
fn no_mark_is_new(earlier: &FreeInputs, later: &FreeInputs) -> bool {
    let mut words = earlier.marks.iter().zip(&later.marks);
    let no_new_bit = words.all(|(earlier, later)| later & !earlier == 0);
    earlier.refusal == 0 && later.refusal == 0 && no_new_bit
}

#[test]
fn an_unmarked_input_stays_unmarked_on_the_walk() {
    let (mut walks, mut steps, mut lost) = (0, 0, 0);
    each_sample_of_inputs(47, 1600, 60, |_, sample| {
        let checked = sample.examine().expect("generated samples are well typed");
        let Some(listed) = sequence(&checked.tables, &checked.term, 30_000) else {
            return;
        };
        for pair in listed.terms.windows(2) {
            let (before, after) = (inputs_read(&pair[0]), inputs_read(&pair[1]));
            assert!(after.is_subset(&before));
            lost += before.len() - after.len();
        }
        let normal_form = &listed.terms[listed.rules.len()];
        let source = sample.free_inputs(free_inputs);
        assert!(no_mark_is_new(&source, &answer_for(&sample, normal_form)));
        walks += 1;
        steps += listed.rules.len();
    });
    assert!(walks > 1500 && steps > 10_000, "{walks}, {steps}");
    assert!(lost > 1000, "{lost} marks lost");
}

#[test]
fn an_unmarked_input_stays_unmarked_in_larger_normal_forms() {
    let mut accepted = 0;
    each_sample_of_inputs(48, 240, 400, |_, sample| {
        let checked = sample.examine().expect("generated samples are well typed");
        let Ok((normal_form, _)) = walk(
            &checked.tables,
            checked.term,
            Settings::no_ceilings(4000),
            8192,
        ) else {
            return;
        };
        let source = sample.free_inputs(free_inputs);
        assert!(no_mark_is_new(&source, &answer_for(&sample, &normal_form)));
        accepted += 1;
    });
    assert!(accepted > 150, "{accepted} accepted");
}

/// An input at the end of these places is marked; in the normal form it is marked exactly if each
/// place keeps its part.
fn check_places(places: &[&Place], input: u64) {
    let sample = read_at(places, 256, input).sample;
    let names: Vec<&str> = places.iter().map(|place| place.name).collect();
    let source = sample.free_inputs(free_inputs);
    assert_eq!((source.refusal, source.count), (0, 1), "{names:?}");
    let checked = sample.examine().expect("readings are well typed");
    let (normal_form, _) = walk(
        &checked.tables,
        checked.term,
        Settings::no_ceilings(4000),
        8192,
    )
    .expect("the walk is short");
    let is_kept = places.iter().all(|place| place.is_kept);
    let expected = if is_kept {
        source
    } else {
        FreeInputs {
            refusal: 0,
            marks: [0; 4],
            count: 0,
        }
    };
    assert_eq!(answer_for(&sample, &normal_form), expected, "{names:?}");
}

#[test]
fn an_input_that_no_run_reads_is_marked() {
    for (input, place) in (0..).zip(PLACES) {
        check_places(&[place], 12 * input);
    }
    let mut random = Random::new(49);
    for _ in 0..1000 {
        let places = random_places(&mut random, 7);
        let input = random.below(256) as u64;
        check_places(&places, input);
    }
}
