//! Typing in one pass over the words, with a list of the nodes whose parts are not all typed.

use crate::nodes::{kind, number, number_of_arguments, type_number};
use oracle::words::*;

/// The whole term's type; `None` if a typing rule is broken.
pub fn type_of(types: &[u64], calls: &[u64], inputs: &[u64], term: &[u64]) -> Option<u32> {
    let mut typing = Typing {
        types,
        calls,
        inputs,
        scope: Vec::new(),
        open: Vec::new(),
    };
    for &word in term {
        let mut progress = typing.begin(word)?;
        while let Progress::Typed(type_number) = progress {
            match typing.open.pop() {
                Some(node) => progress = typing.give(node, type_number)?,
                None => return Some(type_number as u32),
            }
        }
    }
    panic!("the words are one whole term")
}

/// A node is typed, or waits for the type of its next part.
enum Progress {
    Typed(usize),
    Waits,
}

/// A node of which the next part is to be typed.
struct Open {
    word: u64,
    /// The number of parts typed.
    typed: usize,
    /// The type of the part typed last.
    last: usize,
    /// The type of the first part.
    first: usize,
}

struct Typing<'a> {
    types: &'a [u64],
    calls: &'a [u64],
    inputs: &'a [u64],
    /// Types of the binders around the next word, the innermost last.
    scope: Vec<usize>,
    open: Vec<Open>,
}

impl Typing<'_> {
    /// Begins a node; `None` for a broken rule.
    fn begin(&mut self, word: u64) -> Option<Progress> {
        match kind(word) {
            VARIABLE => return Some(Progress::Typed(self.variable(number(word))?)),
            CALL => {
                let signature = self.calls[number(word)];
                if number_of_arguments(signature) == 0 {
                    let (_, result, _) = unpack_call(signature);
                    return Some(Progress::Typed(result as usize));
                }
            }
            FUNCTION => {
                let (domain, _) = self.parts(type_number(word), FUNCTION_TYPE)?;
                self.scope.push(domain);
            }
            UNIT => {
                self.parts(type_number(word), UNIT_TYPE)?;
                return Some(Progress::Typed(type_number(word)));
            }
            _ => {}
        }
        self.open.push(Open {
            word,
            typed: 0,
            last: 0,
            first: 0,
        });
        Some(Progress::Waits)
    }

    /// Gives an open node the type of its next part; `None` for a broken rule.
    fn give(&mut self, node: Open, part: usize) -> Option<Progress> {
        let whole = type_number(node.word);
        match (kind(node.word), node.typed) {
            (CALL, typed) => {
                let signature = self.calls[number(node.word)];
                let (_, result, arguments) = unpack_call(signature);
                require(part as u64 == arguments[typed])?;
                if typed + 1 == number_of_arguments(signature) {
                    return Some(Progress::Typed(result as usize));
                }
            }
            (FUNCTION, _) => {
                self.scope.pop();
                let (_, codomain) = self.parts(whole, FUNCTION_TYPE)?;
                require(part == codomain)?;
                return Some(Progress::Typed(whole));
            }
            (APPLICATION, 0) => {
                self.parts(part, FUNCTION_TYPE)?;
            }
            (APPLICATION, _) => {
                let (domain, codomain) = self.parts(node.first, FUNCTION_TYPE)?;
                require(part == domain)?;
                return Some(Progress::Typed(codomain));
            }
            (LET, 0) => self.scope.push(part),
            (LET, _) => {
                self.scope.pop();
                return Some(Progress::Typed(part));
            }
            (PAIR, 0) => require(part == self.parts(whole, PRODUCT)?.0)?,
            (PAIR, _) => {
                require(part == self.parts(whole, PRODUCT)?.1)?;
                return Some(Progress::Typed(whole));
            }
            (FIRST, _) => return Some(Progress::Typed(self.parts(part, PRODUCT)?.0)),
            (SECOND, _) => return Some(Progress::Typed(self.parts(part, PRODUCT)?.1)),
            (LEFT, _) => {
                require(part == self.parts(whole, SUM)?.0)?;
                return Some(Progress::Typed(whole));
            }
            (RIGHT, _) => {
                require(part == self.parts(whole, SUM)?.1)?;
                return Some(Progress::Typed(whole));
            }
            (_, 0) => self.scope.push(self.parts(part, SUM)?.0),
            (_, 1) => {
                self.scope.pop();
                self.scope.push(self.parts(node.first, SUM)?.1);
            }
            (_, _) => {
                self.scope.pop();
                require(part == node.last)?;
                return Some(Progress::Typed(part));
            }
        }
        self.open.push(Open {
            typed: node.typed + 1,
            last: part,
            first: if node.typed == 0 { part } else { node.first },
            ..node
        });
        Some(Progress::Waits)
    }

    fn variable(&self, number: usize) -> Option<usize> {
        match self.scope.len().checked_sub(number + 1) {
            Some(index) => self.scope.get(index).copied(),
            None => {
                let input = self.inputs.get(number - self.scope.len())?;
                Some(*input as usize)
            }
        }
    }

    /// Left and right field of a type of this kind.
    fn parts(&self, number: usize, kind: u64) -> Option<(usize, usize)> {
        let (actual, left, right) = unpack_type(self.types[number]);
        (actual == kind).then_some((left as usize, right as usize))
    }
}

fn require(condition: bool) -> Option<()> {
    condition.then_some(())
}
