//! What holds of each walk: the first half of demand 3, and demand 2's order of phases.

use oracle::checks::Checked;
use oracle::normal_form::{in_grammar, no_rule_fits};
use oracle::reduction::{Counts, Sequence};
use oracle::rules::{rule_at, Phase, Rule, PHASES};
use oracle::search::{first_redex, Redex};
use oracle::subformula::has_subformula_property;
use oracle::tables::Tables;
use oracle::term::Term;
use oracle::typing::node_types;

pub fn counts(rules: &[Rule]) -> Counts {
    let mut counts = [0; 10];
    for &rule in rules {
        counts[rule as usize] += 1;
    }
    counts
}

/// The first redex read off the paper: the node with the smallest index at which a rule fits.
pub fn first_redex_by_definition(tables: &Tables, term: &Term, phase: Phase) -> Option<Redex> {
    let mut nodes = term.nodes().into_iter().enumerate();
    nodes.find_map(|(index, node)| {
        let rule = rule_at(tables, node, phase)?;
        Some(Redex { rule, index })
    })
}

/// Checks all of demand 3's first half, and demand 2's order of phases, on a listed walk.
pub fn check_sequence(checked: &Checked, listed: &Sequence) {
    let Checked {
        tables,
        term,
        type_number,
    } = checked;
    assert_eq!(listed.terms.len(), listed.rules.len() + 1);
    assert_eq!(&listed.terms[0], term);

    let is_insertion = |rule: &&Rule| **rule == Rule::LetInsertion;
    let insertions = listed.rules.iter().take_while(is_insertion).count();
    assert_eq!(insertions, term.computation_operands());
    let reduced = &listed.rules[insertions..listed.removal_start()];
    assert!(!reduced.contains(&Rule::LetInsertion));
    let dropped = &listed.rules[listed.removal_start()..];
    assert!(dropped.iter().all(|&rule| rule == Rule::Drop));
    assert_eq!(listed.terms[insertions].computation_operands(), 0);

    for (index, term) in listed.terms.iter().enumerate() {
        let types = node_types(tables, term).expect("each term of the walk is well typed");
        assert_eq!(types[0], *type_number);
        for phase in PHASES {
            let expected = first_redex_by_definition(tables, term, phase);
            assert_eq!(first_redex(tables, term, phase), expected);
        }
        let is_last = index + 1 == listed.terms.len();
        let normal = (no_rule_fits(tables, term), in_grammar(tables, term));
        assert_eq!(normal, (is_last, is_last));
    }
    let normal_form = &listed.terms[listed.rules.len()];
    assert!(has_subformula_property(tables, normal_form));
}
