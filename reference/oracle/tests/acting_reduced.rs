//! Reduction of terms with calls that act: types, part types, and the flat test in all its ways.

mod walked;

use oracle::checks::Checked;
use oracle::coding::encode;
use oracle::free_inputs::inputs_read;
use oracle::normal_form::{in_grammar, no_rule_fits};
use oracle::reduction::{sequence, walk};
use oracle::rules::PHASES;
use oracle::search::first_redex;
use oracle::settings::Settings;
use oracle::subformula::has_subformula_property;
use oracle::typing::node_types;
use tools::generate::each::each_acting_sample;
use tools::generate::Sample;
use walked::{check_sequence, counts, first_redex_by_definition};

const MOST_WORDS: usize = 30_000;

#[test]
fn walks_keep_the_type_and_end_in_a_normal_form() {
    let (mut named, mut unnamed, mut without, mut totals) = (0, 0, 0, [0; 10]);
    each_acting_sample(121, 3000, 50, |_, sample| {
        let checked = sample.examine().expect("generated samples are well typed");
        let Some(listed) = sequence(&checked.tables, &checked.term, MOST_WORDS) else {
            return;
        };
        check_sequence(&checked, &listed);
        let normal_form = &listed.terms[listed.rules.len()];
        assert!(inputs_read(normal_form).is_subset(&inputs_read(&checked.term)));
        match (sample.has_acting_call(), sample.names_acting_call()) {
            (true, true) => named += 1,
            (true, false) => unnamed += 1,
            _ => without += 1,
        }
        for (total, count) in totals.iter_mut().zip(counts(&listed.rules)) {
            *total += count;
        }
    });
    assert!(named > 900 && unnamed > 300 && without > 300);
    assert!(totals.iter().all(|&total| total > 300), "{totals:?}");
}

#[test]
fn larger_normal_forms_keep_type_and_part_types() {
    let mut accepted = 0;
    each_acting_sample(122, 300, 400, |_, sample| {
        let checked = sample.examine().expect("generated samples are well typed");
        let tables = &checked.tables;
        let Ok((normal_form, _)) = walk(tables, checked.term, Settings::no_ceilings(4000), 8192)
        else {
            return;
        };
        let types = node_types(tables, &normal_form).expect("normal forms are typed");
        assert_eq!(types[0], checked.type_number);
        assert!(no_rule_fits(tables, &normal_form) && in_grammar(tables, &normal_form));
        assert!(has_subformula_property(tables, &normal_form));
        accepted += 1;
    });
    assert!(accepted > 200, "{accepted} accepted");
}

#[test]
fn search_finds_the_first_place() {
    each_acting_sample(123, 2500, 60, |_, sample| {
        let Checked { tables, term, .. } =
            sample.examine().expect("generated samples are well typed");
        for phase in PHASES {
            let expected = first_redex_by_definition(&tables, &term, phase);
            assert_eq!(first_redex(&tables, &term, phase), expected);
        }
    });
}

#[test]
fn the_flat_test_agrees_with_grammar_and_walk() {
    let (mut normal, mut by_acting) = (0, 0);
    each_acting_sample(124, 20_000, 12, |_, sample| {
        let Checked { tables, term, .. } =
            sample.examine().expect("generated samples are well typed");
        let takes_no_step = walk(&tables, term.clone(), Settings::no_ceilings(0), 8192).is_ok();
        assert_eq!(no_rule_fits(&tables, &term), takes_no_step);
        assert_eq!(in_grammar(&tables, &term), takes_no_step);
        assert_eq!(sample.is_normal().normal, takes_no_step);
        normal += usize::from(takes_no_step);
        // The same words over calls of which none acts.
        let plain = sample.without_acting_calls();
        assert!(takes_no_step || !plain.is_normal().normal);
        by_acting += usize::from(takes_no_step && !plain.is_normal().normal);
    });
    assert!(normal > 2000, "{normal} normal forms");
    assert!(by_acting > 400, "{by_acting} because calls act");
}

#[test]
fn normal_forms_are_normal_by_every_test() {
    each_acting_sample(125, 2000, 60, |_, sample| {
        let Checked { tables, term, .. } =
            sample.examine().expect("generated samples are well typed");
        if let Ok((normal_form, _)) = walk(&tables, term, Settings::no_ceilings(1000), 4000) {
            let later = Sample {
                term: encode(&normal_form),
                ..sample
            };
            assert!(later.is_normal().normal);
            assert!(walk(&tables, normal_form, Settings::no_ceilings(0), 4000).is_ok());
        }
    });
}
