//! A unit is a value without parts: no let is put in for it, and a let that binds it goes by let
//! value.

use oracle::reduction::{sequence, step};
use oracle::rules::{rule_at, Phase, Rule};
use oracle::search::first_redex;
use oracle::term::Term;
use tools::generate::each::each_unit_sample;

const MOST_WORDS: usize = 30_000;

fn is_unit(term: &Term) -> bool {
    matches!(term, Term::Unit(_))
}

#[test]
fn a_unit_is_a_value_without_parts() {
    let unit = Term::Unit(1);
    assert!(unit.is_value());
    assert_eq!((unit.parts().count(), unit.size()), (0, 1));
    assert_eq!(unit.clone().parts_mut().count(), 0);
    let pair = Term::Pair(5, Box::new(unit.clone()), Box::new(unit.clone()));
    assert!(pair.is_value());
    assert!(Term::Left(6, Box::new(pair)).is_value());
    let call = Term::Call(3, vec![unit.clone()]);
    assert!(!call.is_value());
    assert_eq!(call.computation_operands(), 0);
}

#[test]
fn a_let_of_a_unit_is_removed_by_let_value_alone() {
    let mut lets = 0;
    each_unit_sample(81, 2000, 50, |_, sample| {
        let checked = sample.examine().expect("generated samples are well typed");
        let Some(listed) = sequence(&checked.tables, &checked.term, MOST_WORDS) else {
            return;
        };
        let tables = &checked.tables;
        for term in &listed.terms {
            for node in term.nodes() {
                let Term::Let(bound, _) = node else { continue };
                if is_unit(bound) {
                    assert_eq!(
                        rule_at(tables, node, Phase::Reduction),
                        Some(Rule::LetValue)
                    );
                    assert_eq!(rule_at(tables, node, Phase::Insertion), None);
                    assert_eq!(rule_at(tables, node, Phase::Removal), None);
                    lets += 1;
                }
            }
        }
    });
    assert!(lets > 1000, "{lets} lets");
}

#[test]
fn phase_one_binds_no_unit() {
    let (mut insertions, mut units_kept) = (0, 0);
    each_unit_sample(82, 4000, 50, |_, sample| {
        let checked = sample.examine().expect("generated samples are well typed");
        let mut term = checked.term;
        while let Some(redex) = first_redex(&checked.tables, &term, Phase::Insertion) {
            let node = term.node_mut(redex.index).clone();
            let has_unit = node.parts().any(|(_, part)| is_unit(part));
            units_kept += usize::from(has_unit);
            step(&mut term, redex);
            let Term::Let(bound, _) = term.node_mut(redex.index) else {
                panic!("phase 1 makes a let");
            };
            assert!(!is_unit(bound) && !bound.is_value());
            insertions += 1;
        }
    });
    assert!(
        insertions > 5000 && units_kept > 300,
        "{insertions}, {units_kept}"
    );
}
