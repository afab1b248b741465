//! Whether a term is a normal form (the paper's flat test), in two ways.

use crate::dropping::may_be_dropped;
use crate::rules::{rule_at, PHASES};
use crate::substitution::occurrences;
use crate::tables::Tables;
use crate::term::{Role, Term};

/// No rule of any phase fits anywhere.
pub fn no_rule_fits(tables: &Tables, term: &Term) -> bool {
    let mut phases = PHASES.into_iter();
    let fits_here = phases.any(|phase| rule_at(tables, term, phase).is_some());
    let mut parts = term.parts();
    !fits_here && parts.all(|(_, part)| no_rule_fits(tables, part))
}

/// The grammar of normal forms; it agrees with `no_rule_fits` on well-typed terms.
pub fn in_grammar(tables: &Tables, term: &Term) -> bool {
    match term {
        Term::Let(bound, body) => {
            let stays = occurrences(body, 0) > 0 || !may_be_dropped(tables, bound);
            is_operation(tables, bound) && stays && in_grammar(tables, body)
        }
        Term::Case(subject, left, right) => {
            is_variable(subject) && in_grammar(tables, left) && in_grammar(tables, right)
        }
        _ => is_normal_value(tables, term) || is_operation(tables, term),
    }
}

/// A value whose function bodies are normal forms.
fn is_normal_value(tables: &Tables, term: &Term) -> bool {
    let mut parts = term.parts();
    term.has_value_kind()
        && parts.all(|(role, part)| match role {
            Role::Scope => in_grammar(tables, part),
            _ => is_normal_value(tables, part),
        })
}

/// An application of a variable, or a call, on normal values; first or second of a variable.
fn is_operation(tables: &Tables, term: &Term) -> bool {
    match term {
        Term::Application(head, operand) => is_variable(head) && is_normal_value(tables, operand),
        Term::Call(_, arguments) => {
            let mut arguments = arguments.iter();
            arguments.all(|argument| is_normal_value(tables, argument))
        }
        Term::First(operand) | Term::Second(operand) => is_variable(operand),
        _ => false,
    }
}

fn is_variable(term: &Term) -> bool {
    matches!(term, Term::Variable(_))
}
