//! Demands 1, 2 and 3 on random well-typed terms, inputs and answers.

mod runs;
mod walked;

use oracle::api::{normalize, Answer};
use oracle::checks::{Checked, Refusal};
use oracle::coding::{decode, encode};
use oracle::deep_stack::with_deep_stack;
use oracle::normal_form::{in_grammar, no_rule_fits};
use oracle::reduction::{sequence, walk, Sequence};
use oracle::rules::{Rule, PHASES};
use oracle::search::first_redex;
use oracle::settings::Settings;
use oracle::subformula::{has_first_order_interface, has_subformula_property};
use oracle::term::Term;
use oracle::typing::node_types;
use runs::run_walk;
use tools::generate::runs::{is_sublist, run_term};
use tools::generate::terms::random_sample;
use tools::generate::values::random_inputs;
use tools::generate::{Profile, Sample};
use tools::random::Random;
use walked::{check_sequence, counts, first_redex_by_definition};

/// The words all terms of a listed walk may have together.
const MOST_WORDS: usize = 300_000;
/// The settings for the larger samples.
const FOR_LARGE: Settings = Settings::no_ceilings(4000);

/// Generates `count` samples and hands each with its decoded form to `test`.
fn for_samples(
    seed: u64,
    count: usize,
    profile: Profile,
    mut test: impl FnMut(&mut Random, &Sample, &Checked) + Send,
) {
    with_deep_stack(|| {
        let mut random = Random::new(seed);
        for _ in 0..count {
            let sample = random_sample(&mut random, &profile);
            let checked = sample.examine().expect("generated samples are well typed");
            test(&mut random, &sample, &checked);
        }
    });
}

#[test]
fn encoding_undoes_decoding() {
    for_samples(1, 2000, Profile::of_size(150), |_, sample, checked| {
        assert_eq!(encode(&checked.term), sample.term);
        assert_eq!(checked.term.size(), sample.term.len());
        assert_eq!(checked.term.nodes().len(), sample.term.len());
        let signatures = &checked.tables.signatures;
        let decoded = decode(&sample.term, signatures).expect("the words are a term");
        assert_eq!(decoded, checked.term);
    });
}

#[test]
fn search_finds_the_smallest_index() {
    for_samples(2, 3000, Profile::of_size(80), |_, _, checked| {
        let Checked { tables, term, .. } = checked;
        for phase in PHASES {
            let expected = first_redex_by_definition(tables, term, phase);
            assert_eq!(first_redex(tables, term, phase), expected);
        }
    });
}

#[test]
fn grammar_agrees_with_no_rule_fits() {
    let mut normal = 0;
    for_samples(3, 20_000, Profile::of_size(12), |_, sample, checked| {
        let Checked { tables, term, .. } = checked;
        let is_normal_form = no_rule_fits(tables, term);
        assert_eq!(in_grammar(tables, term), is_normal_form);
        let answer = sample.is_normal();
        assert_eq!((answer.refusal, answer.normal), (0, is_normal_form));
        normal += usize::from(is_normal_form);
    });
    assert!(normal > 1000, "{normal} normal forms");
}

#[test]
fn walks_keep_the_type_and_end_in_a_normal_form() {
    let mut totals = [0; 10];
    let (mut unlisted, mut without_property) = (0, 0);
    for_samples(4, 2500, Profile::of_size(50), |_, _, checked| {
        let Some(listed) = sequence(&checked.tables, &checked.term, 30_000) else {
            unlisted += 1;
            return;
        };
        check_sequence(checked, &listed);
        let had_property = has_subformula_property(&checked.tables, &checked.term);
        without_property += usize::from(!had_property);
        for (total, count) in totals.iter_mut().zip(counts(&listed.rules)) {
            *total += count;
        }
    });
    assert!(unlisted < 100, "{unlisted} walks too long");
    assert!(without_property > 500, "{without_property} inputs without");
    assert!(totals.iter().all(|&total| total > 400), "{totals:?}");
}

#[test]
fn larger_normal_forms_have_the_subformula_property() {
    let mut accepted = 0;
    for_samples(5, 300, Profile::of_size(400), |_, _, checked| {
        let Checked { tables, term, .. } = checked;
        let Ok((normal_form, counts)) = walk(tables, term.clone(), FOR_LARGE, 8192) else {
            return;
        };
        accepted += 1;
        let types = node_types(tables, &normal_form).expect("normal forms are typed");
        assert_eq!(types[0], checked.type_number);
        assert!(no_rule_fits(tables, &normal_form) && in_grammar(tables, &normal_form));
        assert!(has_subformula_property(tables, &normal_form));
        let insertions = counts[Rule::LetInsertion as usize] as usize;
        assert_eq!(insertions, term.computation_operands());
    });
    assert!(accepted > 200, "{accepted} accepted");
}

/// The answer the listed walk demands, and the words of the output's front.
fn expected_answer(
    type_number: u32,
    listed: &Sequence,
    budget: usize,
    capacity: usize,
) -> (Answer, Vec<u64>) {
    let refused = |refusal, steps: usize| {
        let answer = Answer::refused(refusal, counts(&listed.rules[..steps]));
        (answer, Vec::new())
    };
    if listed.terms[0].size() > capacity {
        return refused(Refusal::Capacity, 0);
    }
    for steps in 0..listed.rules.len() {
        if steps == budget {
            return refused(Refusal::Budget, steps);
        }
        if listed.terms[steps + 1].size() > capacity {
            return refused(Refusal::Capacity, steps);
        }
    }
    let words = encode(&listed.terms[listed.rules.len()]);
    let answer = Answer {
        refusal: 0,
        type_number,
        length: words.len(),
        counts: counts(&listed.rules),
    };
    (answer, words)
}

/// Normalizes with dirty slices of unequal lengths, the shortest of which is the capacity.
fn check_normalize(
    random: &mut Random,
    sample: &Sample,
    budget: usize,
    capacity: usize,
    expected: &(Answer, Vec<u64>),
) {
    let mut slices = [0; 3].map(|_: usize| {
        let length = capacity + random.below(3);
        let words: Vec<u64> = (0..length).map(|_| random.bits()).collect();
        words
    });
    slices[random.below(3)].truncate(capacity);
    let before = slices[0].clone();
    let answer = sample.normalize(normalize, Settings::no_ceilings(budget as u32), &mut slices);
    let [output, first, second] = slices;
    assert_eq!(answer, expected.0);
    assert_eq!(output[..answer.length], expected.1);
    assert_eq!(output[answer.length..], before[answer.length..]);
    let mut scratch = first.iter().chain(&second);
    assert!(scratch.all(|&word| word == 0));
}

#[test]
fn budget_and_capacity_fall_where_the_walk_meets_them() {
    let mut refusals = [0; 12];
    for_samples(6, 2000, Profile::of_size(60), |random, sample, checked| {
        let Some(listed) = sequence(&checked.tables, &checked.term, MOST_WORDS) else {
            return;
        };
        let steps = listed.rules.len();
        let largest = listed.terms.iter().map(Term::size).max().unwrap_or(0);
        if largest > 8192 {
            return;
        }
        let random_limits = (random.between(0, steps), random.between(0, largest));
        let limits = [
            (steps, largest),
            (steps + 1, largest + 1),
            (steps.saturating_sub(1), largest),
            (steps, largest - 1),
            (0, largest - 1),
            (random_limits.0, largest),
            (steps, random_limits.1),
            random_limits,
        ];
        for (budget, capacity) in limits {
            let expected = expected_answer(checked.type_number, &listed, budget, capacity);
            check_normalize(random, sample, budget, capacity, &expected);
            refusals[expected.0.refusal as usize] += 1;
        }
        let exactly_enough = expected_answer(checked.type_number, &listed, steps, largest);
        assert_eq!(exactly_enough.0.refusal, 0);
        let one_word_less = expected_answer(checked.type_number, &listed, steps, largest - 1);
        assert_eq!(one_word_less.0.refusal, 11);
        if steps > 0 {
            let one_step_less = expected_answer(checked.type_number, &listed, steps - 1, largest);
            assert_eq!(one_step_less.0.refusal, 10);
        }
    });
    assert!(refusals[0] > 1000 && refusals[10] > 1000 && refusals[11] > 1000);
}

#[test]
fn runs_give_the_same_answer_and_the_same_calls() {
    let (mut compared, mut with_calls, mut shorter) = (0, 0, 0);
    let profile = Profile::of_size(60).first_order();
    for_samples(7, 2500, profile, |random, _, checked| {
        let Checked {
            tables,
            term,
            type_number,
        } = checked;
        assert!(has_first_order_interface(tables, term, *type_number));
        run_walk(random, checked, 3, |_, _, runs| {
            let (source, last) = (&runs[0], &runs[runs.len() - 1]);
            assert!(is_sublist(&last.trace, &source.trace));
            compared += 1;
            with_calls += usize::from(source.trace.len() > 1);
            shorter += usize::from(last.trace.len() < source.trace.len());
        });
    });
    assert!(compared > 6000, "{compared} runs compared");
    assert!(with_calls > 2000, "{with_calls} runs with calls");
    assert!(shorter > 500, "{shorter} runs with dropped calls");
}

#[test]
fn runs_of_larger_normal_forms_agree() {
    let mut compared = 0;
    let profile = Profile::of_size(400).first_order();
    for_samples(8, 300, profile, |random, _, checked| {
        let Checked { tables, term, .. } = checked;
        let Ok((normal_form, _)) = walk(tables, term.clone(), FOR_LARGE, 8192) else {
            return;
        };
        let inputs = random_inputs(random, tables);
        let seed = random.bits();
        let Some(original) = run_term(tables, term, &inputs, seed) else {
            return;
        };
        let flat = run_term(tables, &normal_form, &inputs, seed).expect("shorter runs end");
        assert_eq!(flat.answer, original.answer);
        assert!(is_sublist(&flat.trace, &original.trace));
        compared += 1;
    });
    assert!(compared > 200, "{compared} runs compared");
}
