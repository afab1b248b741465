//! The first redex (the first place a rule fits) of a phase: the one with the smallest index.

use crate::dropping::may_be_dropped;
use crate::rules::{rule_at, Phase, Rule};
use crate::tables::Tables;
use crate::term::{Role, Term};

/// A rule and the index in prefix order of the node it fits.
#[derive(Clone, Copy, Debug, PartialEq, Eq)]
pub struct Redex {
    pub rule: Rule,
    pub index: usize,
}

/// The first redex of a phase, also under binders. Time is linear in the term's size.
pub fn first_redex(tables: &Tables, term: &Term, phase: Phase) -> Option<Redex> {
    match phase {
        Phase::Insertion | Phase::Reduction => search(tables, term, phase, false, &mut 0),
        Phase::Removal => first_let_to_drop(tables, term),
    }
}

/// Visits nodes in prefix order. A value as operand has no insertion at its own node: it is not
/// tested again, so that nested pairs cost no more than their length.
fn search(
    tables: &Tables,
    term: &Term,
    phase: Phase,
    is_operand: bool,
    index: &mut usize,
) -> Option<Redex> {
    let tested = phase == Phase::Insertion && is_operand;
    if !tested {
        if let Some(rule) = rule_at(tables, term, phase) {
            return Some(Redex {
                rule,
                index: *index,
            });
        }
    }
    *index += 1;
    term.parts()
        .find_map(|(role, part)| search(tables, part, phase, role == Role::Operand, index))
}

/// The first let whose variable is not used and whose bound part may be dropped.
fn first_let_to_drop(tables: &Tables, term: &Term) -> Option<Redex> {
    let mut visit = Usage {
        tables,
        used: Vec::new(),
        index: 0,
        first: None,
    };
    visit.node(term);
    visit.first.map(|index| Redex {
        rule: Rule::Drop,
        index,
    })
}

struct Usage<'a> {
    tables: &'a Tables,
    /// For each binder around the node, the innermost last, whether it is used so far.
    used: Vec<bool>,
    index: usize,
    first: Option<usize>,
}

impl Usage<'_> {
    fn node(&mut self, term: &Term) {
        let index = self.index;
        let earlier = self.first;
        self.index += 1;
        if let Term::Variable(number) = term {
            // Past the last binder the number names an input.
            if let Some(used) = self.used.iter_mut().rev().nth(*number as usize) {
                *used = true;
            }
        }
        for (role, part) in term.parts() {
            if role != Role::Scope {
                self.node(part);
                continue;
            }
            self.used.push(false);
            self.node(part);
            let used = self
                .used
                .pop()
                .expect("the binder was put there before its scope");
            if let Term::Let(bound, _) = term {
                if !used && may_be_dropped(self.tables, bound) {
                    self.first = earlier.or(Some(index));
                }
            }
        }
    }
}
