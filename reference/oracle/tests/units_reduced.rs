//! Reduction of terms with units: types, part types and normal forms.

mod walked;

use oracle::checks::Checked;
use oracle::free_inputs::inputs_read;
use oracle::normal_form::{in_grammar, no_rule_fits};
use oracle::reduction::{sequence, walk};
use oracle::rules::PHASES;
use oracle::search::first_redex;
use oracle::settings::Settings;
use oracle::subformula::has_subformula_property;
use oracle::term::Term;
use oracle::typing::node_types;
use tools::generate::each::each_unit_sample;
use walked::{check_sequence, counts, first_redex_by_definition};

const MOST_WORDS: usize = 30_000;

fn has_unit(term: &Term) -> bool {
    let mut nodes = term.nodes().into_iter();
    nodes.any(|node| matches!(node, Term::Unit(_)))
}

#[test]
fn walks_keep_the_type_and_end_in_a_normal_form() {
    let (mut with_units, mut still_with_units, mut totals) = (0, 0, [0; 10]);
    each_unit_sample(83, 2500, 50, |_, sample| {
        let checked = sample.examine().expect("generated samples are well typed");
        let term = &checked.term;
        let Some(listed) = sequence(&checked.tables, term, MOST_WORDS) else {
            return;
        };
        check_sequence(&checked, &listed);
        let normal_form = &listed.terms[listed.rules.len()];
        assert!(inputs_read(normal_form).is_subset(&inputs_read(term)));
        with_units += usize::from(has_unit(term));
        still_with_units += usize::from(has_unit(normal_form));
        for (total, count) in totals.iter_mut().zip(counts(&listed.rules)) {
            *total += count;
        }
    });
    assert!(with_units > 1000, "{with_units} with units");
    assert!(still_with_units > 500, "{still_with_units} still");
    assert!(totals.iter().all(|&total| total > 300), "{totals:?}");
}

#[test]
fn larger_normal_forms_keep_type_and_part_types() {
    let (mut accepted, mut with_units) = (0, 0);
    each_unit_sample(84, 300, 400, |_, sample| {
        let checked = sample.examine().expect("generated samples are well typed");
        let Ok((normal_form, _)) = walk(
            &checked.tables,
            checked.term,
            Settings::no_ceilings(4000),
            8192,
        ) else {
            return;
        };
        let tables = &checked.tables;
        let types = node_types(tables, &normal_form).expect("normal forms are typed");
        assert_eq!(types[0], checked.type_number);
        assert!(no_rule_fits(tables, &normal_form) && in_grammar(tables, &normal_form));
        assert!(has_subformula_property(tables, &normal_form));
        accepted += 1;
        with_units += usize::from(has_unit(&normal_form));
    });
    assert!(
        accepted > 200 && with_units > 50,
        "{accepted}, {with_units}"
    );
}

#[test]
fn search_finds_the_first_place() {
    each_unit_sample(86, 2000, 60, |_, sample| {
        let Checked { tables, term, .. } =
            sample.examine().expect("generated samples are well typed");
        for phase in PHASES {
            let expected = first_redex_by_definition(&tables, &term, phase);
            assert_eq!(first_redex(&tables, &term, phase), expected);
        }
    });
}
