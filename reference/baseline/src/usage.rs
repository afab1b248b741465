//! The first let to drop: one pass over the term counts the uses of all variables.

use crate::nodes::{acts, is_value_kind, kind, number, number_of_arguments};
use oracle::words::*;

/// A part to come: the number of binders around it, and the place of the innermost one's node.
#[derive(Clone, Copy)]
struct Scope {
    depth: usize,
    binder: usize,
}

/// The lists of the counting pass, kept from one pass to the next, and what the call table says.
pub struct Usage<'a> {
    calls: &'a [u64],
    /// Whether some call of the table acts.
    has_acting_call: bool,
    /// How often the variable bound by the node at each place is used; a case counts for both
    /// its branches.
    uses: Vec<u32>,
    /// The nodes that bind the variables in scope, the outermost first.
    binders: Vec<usize>,
    /// The parts to come, the next one last.
    pending: Vec<Scope>,
}

impl<'a> Usage<'a> {
    /// For terms over this call table.
    pub fn new(calls: &'a [u64]) -> Usage<'a> {
        Usage {
            calls,
            has_acting_call: calls.iter().any(|&signature| acts(signature)),
            uses: Vec::new(),
            binders: Vec::new(),
            pending: Vec::new(),
        }
    }

    /// The first let whose variable is not used and whose bound part may be dropped.
    pub fn first_let_to_drop(&mut self, term: &[u64]) -> Option<usize> {
        self.count(term);
        (0..term.len()).find(|&place| {
            kind(term[place]) == LET
                && self.uses[place] == 0
                && self.may_be_dropped(term[place + 1])
        })
    }

    /// Whether drop fits an unused let whose bound part starts with this word.
    fn may_be_dropped(&self, word: u64) -> bool {
        match kind(word) {
            CALL => !acts(self.calls[number(word)]),
            APPLICATION => !self.has_acting_call,
            _ => !is_value_kind(word),
        }
    }

    fn count(&mut self, term: &[u64]) {
        let calls = self.calls;
        self.uses.clear();
        self.uses.resize(term.len(), 0);
        self.binders.resize(term.len(), 0);
        self.pending.clear();
        self.pending.push(Scope {
            depth: 0,
            binder: 0,
        });
        for (place, &word) in term.iter().enumerate() {
            let scope = self.pending.pop().expect("each word is a part's first");
            if scope.depth > 0 {
                self.binders[scope.depth - 1] = scope.binder;
            }
            let inside = Scope {
                depth: scope.depth + 1,
                binder: place,
            };
            match kind(word) {
                VARIABLE => {
                    if number(word) < scope.depth {
                        let binder = self.binders[scope.depth - 1 - number(word)];
                        self.uses[binder] += 1;
                    }
                }
                CALL => {
                    for _ in 0..number_of_arguments(calls[number(word)]) {
                        self.pending.push(scope);
                    }
                }
                UNIT => {}
                FUNCTION => self.pending.push(inside),
                APPLICATION | PAIR => self.pending.extend([scope, scope]),
                LET => self.pending.extend([inside, scope]),
                CASE => self.pending.extend([inside, inside, scope]),
                _ => self.pending.push(scope),
            }
        }
    }
}
