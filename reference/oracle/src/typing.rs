//! Typing on type numbers: equal types have equal numbers.

use crate::tables::{Tables, Type};
use crate::term::Term;

/// The types of all nodes in prefix order; `None` if a typing rule is broken. Calls, types and
/// variables are known: the checks before typing have seen to that.
pub fn node_types(tables: &Tables, term: &Term) -> Option<Vec<u32>> {
    let mut typing = Typing {
        tables,
        scope: Vec::new(),
        types: Vec::new(),
    };
    typing.infer(term)?;
    Some(typing.types)
}

struct Typing<'a> {
    tables: &'a Tables,
    /// Types of the binders around the node, the innermost last.
    scope: Vec<u32>,
    /// Types of the nodes visited so far.
    types: Vec<u32>,
}

impl Typing<'_> {
    fn infer(&mut self, term: &Term) -> Option<u32> {
        let index = self.types.len();
        self.types.push(0);
        let type_number = match term {
            Term::Variable(number) => self.variable(*number),
            Term::Call(number, arguments) => {
                let signature = self.tables.signature_at(*number);
                assert_eq!(
                    arguments.len(),
                    signature.arguments.len(),
                    "a call has as many arguments as its signature says"
                );
                for (argument, &expected) in arguments.iter().zip(&signature.arguments) {
                    require(self.infer(argument)? == expected)?;
                }
                signature.result
            }
            Term::Function(whole, body) => {
                let Type::Function(domain, codomain) = self.tables.type_at(*whole) else {
                    return None;
                };
                require(self.infer_under(domain, body)? == codomain)?;
                *whole
            }
            Term::Application(head, operand) => {
                let head = self.infer(head)?;
                let Type::Function(domain, codomain) = self.tables.type_at(head) else {
                    return None;
                };
                require(self.infer(operand)? == domain)?;
                codomain
            }
            Term::Let(bound, body) => {
                let bound = self.infer(bound)?;
                self.infer_under(bound, body)?
            }
            Term::Pair(whole, left, right) => {
                let Type::Product(first, second) = self.tables.type_at(*whole) else {
                    return None;
                };
                require(self.infer(left)? == first)?;
                require(self.infer(right)? == second)?;
                *whole
            }
            Term::First(operand) => self.product(operand)?.0,
            Term::Second(operand) => self.product(operand)?.1,
            Term::Left(whole, operand) => {
                let Type::Sum(left, _) = self.tables.type_at(*whole) else {
                    return None;
                };
                require(self.infer(operand)? == left)?;
                *whole
            }
            Term::Right(whole, operand) => {
                let Type::Sum(_, right) = self.tables.type_at(*whole) else {
                    return None;
                };
                require(self.infer(operand)? == right)?;
                *whole
            }
            Term::Case(subject, left_branch, right_branch) => {
                let subject = self.infer(subject)?;
                let Type::Sum(left, right) = self.tables.type_at(subject) else {
                    return None;
                };
                let type_number = self.infer_under(left, left_branch)?;
                require(self.infer_under(right, right_branch)? == type_number)?;
                type_number
            }
            Term::Unit(whole) => {
                require(self.tables.type_at(*whole) == Type::Unit)?;
                *whole
            }
        };
        self.types[index] = type_number;
        Some(type_number)
    }

    fn infer_under(&mut self, binder: u32, body: &Term) -> Option<u32> {
        self.scope.push(binder);
        let type_number = self.infer(body);
        self.scope.pop();
        type_number
    }

    fn variable(&self, number: u32) -> u32 {
        let mut in_scope = self.scope.iter().rev().chain(&self.tables.inputs);
        *in_scope
            .nth(number as usize)
            .expect("a variable names a binder or an input")
    }

    fn product(&mut self, operand: &Term) -> Option<(u32, u32)> {
        let operand = self.infer(operand)?;
        match self.tables.type_at(operand) {
            Type::Product(left, right) => Some((left, right)),
            _ => None,
        }
    }
}

fn require(condition: bool) -> Option<()> {
    condition.then_some(())
}
