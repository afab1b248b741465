//! Reduction sequences (the paper's walk): one step, the bounded walk, and the list of its terms.

use crate::checks::Refusal;
use crate::rules::{growth, rewrite, Rule, PHASES};
use crate::search::{first_redex, Redex};
use crate::settings::Settings;
use crate::tables::Tables;
use crate::term::Term;
use std::mem::replace;

/// Steps taken by each rule, in the order of `Rule`.
pub type Counts = [u32; 10];

/// Rewrites the redex in place.
pub fn step(term: &mut Term, redex: Redex) {
    rewrite_in_place(term.node_mut(redex.index), redex.rule);
}

fn rewrite_in_place(node: &mut Term, rule: Rule) {
    let taken = replace(node, Term::Variable(0));
    *node = rewrite(rule, taken);
}

/// The length of a term of this length after it has grown by so much.
pub fn grown(length: usize, growth: isize) -> usize {
    let next_length = length.checked_add_signed(growth);
    next_length.expect("a term has at least one word")
}

/// Why a bounded walk stopped early, and the steps it had taken.
#[derive(Clone, Copy, Debug, PartialEq, Eq)]
pub struct Stopped {
    pub refusal: Refusal,
    pub counts: Counts,
}

/// Walks to the normal form (the paper's flat form) within the settings' budget and ceilings and a
/// capacity (the paper's room) of words.
pub fn walk(
    tables: &Tables,
    mut term: Term,
    settings: Settings,
    capacity: usize,
) -> Result<(Term, Counts), Stopped> {
    let mut counts = [0; 10];
    let mut steps = 0;
    let mut size = term.size();
    let stop = |refusal, counts| Err(Stopped { refusal, counts });
    if size > capacity {
        return stop(Refusal::Capacity, counts);
    }
    for phase in PHASES {
        while let Some(redex) = first_redex(tables, &term, phase) {
            if steps == settings.budget {
                return stop(Refusal::Budget, counts);
            }
            if settings.ceiling_is_met(redex.rule, &counts) {
                return stop(Refusal::Ceiling, counts);
            }
            let node = term.node_mut(redex.index);
            let next_size = grown(size, growth(redex.rule, node));
            if next_size > capacity {
                return stop(Refusal::Capacity, counts);
            }
            rewrite_in_place(node, redex.rule);
            size = next_size;
            steps += 1;
            counts[redex.rule as usize] += 1;
        }
    }
    Ok((term, counts))
}

/// The terms of a walk, and between each two the rule of the step.
#[derive(Clone, Debug)]
pub struct Sequence {
    pub terms: Vec<Term>,
    pub rules: Vec<Rule>,
}

impl Sequence {
    /// The index of the term the third phase starts from.
    pub fn removal_start(&self) -> usize {
        let steps_before = self.rules.iter().take_while(|&&rule| rule != Rule::Drop);
        steps_before.count()
    }
}

/// All terms of the walk; `None` if their lengths add up to more than `most_words`.
pub fn sequence(tables: &Tables, term: &Term, most_words: usize) -> Option<Sequence> {
    let mut terms = vec![term.clone()];
    let mut rules = Vec::new();
    let mut current = term.clone();
    let mut words = current.size();
    for phase in PHASES {
        while let Some(redex) = first_redex(tables, &current, phase) {
            let growth = growth(redex.rule, current.node_mut(redex.index));
            words += grown(current.size(), growth);
            if words > most_words {
                return None;
            }
            step(&mut current, redex);
            terms.push(current.clone());
            rules.push(redex.rule);
        }
    }
    Some(Sequence { terms, rules })
}
