//! Renaming (the paper's renumbering) and capture-free substitution (its putting in).

use crate::term::Term;

/// Adds `amount` to every variable which names a binder or input outside `cutoff` binders.
pub fn raise(term: &mut Term, amount: u32, cutoff: u32) {
    if let Term::Variable(number) = term {
        if *number >= cutoff {
            *number += amount;
        }
    }
    for (role, part) in term.parts_mut() {
        raise(part, amount, cutoff + role.binders());
    }
}

/// Takes away a binder whose variable is not used; `body` stood under it.
pub fn lower(body: &mut Term) {
    fn lower_under(term: &mut Term, depth: u32) {
        if let Term::Variable(number) = term {
            if *number > depth {
                *number -= 1;
            }
        }
        for (role, part) in term.parts_mut() {
            lower_under(part, depth + role.binders());
        }
    }
    lower_under(body, 0);
}

/// `body` with `value` in place of the variable of the binder it stood under, which goes.
pub fn substitute(mut body: Term, value: &Term) -> Term {
    fn substitute_under(term: &mut Term, depth: u32, value: &Term) {
        if let Term::Variable(number) = term {
            if *number > depth {
                *number -= 1;
            } else if *number == depth {
                *term = value.clone();
                raise(term, depth, 0);
            }
            return;
        }
        for (role, part) in term.parts_mut() {
            substitute_under(part, depth + role.binders(), value);
        }
    }
    substitute_under(&mut body, 0, value);
    body
}

/// How often the variable with this number is used.
pub fn occurrences(term: &Term, number: u32) -> usize {
    if let Term::Variable(other) = term {
        return usize::from(*other == number);
    }
    term.parts()
        .map(|(role, part)| occurrences(part, number + role.binders()))
        .sum()
}
