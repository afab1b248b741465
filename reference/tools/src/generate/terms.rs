//! Well-typed random terms, built from a goal type downwards.

use super::tables::{acting, random_call, random_tables, usable_types, TableWords};
use super::{Profile, Sample};
use crate::random::Random;
use oracle::coding::encode;
use oracle::substitution::raise;
use oracle::tables::{Tables, Type};
use oracle::term::Term;

/// A random well-typed sample.
pub fn random_sample(random: &mut Random, profile: &Profile) -> Sample {
    let words = random_tables(random, profile);
    random_sample_over(random, profile, words)
}

/// A random well-typed sample over these tables, in which every type is inhabited.
pub fn random_sample_over(random: &mut Random, profile: &Profile, mut words: TableWords) -> Sample {
    let goals = usable_types(&words.types, profile.first_order);
    let tables = Tables::from_words(&words.types, &words.calls, &words.inputs)
        .expect("generated tables decode");
    let goal = *random.pick(&goals) as u32;
    let fuel = random.between(1, profile.fuel);
    let mut builder = Builder {
        random,
        tables: &tables,
        scope: Vec::new(),
        forms: if profile.acting { &WITH_UNUSED } else { &FORMS },
    };
    let term = builder.term(goal, fuel);
    let percent = if profile.acting { 50 } else { 20 };
    if words.calls.len() < profile.most_calls && random.chance(percent) {
        // The term does not use this call: it may have functions in its types.
        let all_types = usable_types(&words.types, false);
        let word = random_call(random, &all_types);
        let acts = profile.acting && random.chance(70);
        words.calls.push(if acts { acting(word) } else { word });
    }
    Sample {
        types: words.types,
        calls: words.calls,
        inputs: words.inputs,
        term: encode(&term),
    }
}

/// With more fuel than this a node has parts.
const LEAF_FUEL: usize = 5;

struct Builder<'a> {
    random: &'a mut Random,
    tables: &'a Tables,
    /// Types of the binders around, the innermost last.
    scope: Vec<u32>,
    forms: &'static [Form],
}

/// The forms a node can take for a goal.
#[derive(Clone, Copy)]
enum Form {
    Variable,
    Introduction,
    Call,
    Let,
    Application,
    Projection,
    Case,
    UnusedLet,
}

/// The forms, repeated by weight.
const FORMS: [Form; 20] = [
    Form::Variable,
    Form::Introduction,
    Form::Introduction,
    Form::Call,
    Form::Call,
    Form::Call,
    Form::Let,
    Form::Let,
    Form::Let,
    Form::Let,
    Form::Application,
    Form::Application,
    Form::Application,
    Form::Projection,
    Form::Projection,
    Form::Projection,
    Form::Projection,
    Form::Case,
    Form::Case,
    Form::Case,
];

/// The same with lets that are not used.
const WITH_UNUSED: [Form; 26] = {
    let mut forms = [Form::UnusedLet; 26];
    let (all, _) = forms.split_at_mut(FORMS.len());
    all.copy_from_slice(&FORMS);
    forms
};

impl Builder<'_> {
    /// A term of the goal type with about `fuel` nodes.
    fn term(&mut self, goal: u32, fuel: usize) -> Term {
        if fuel <= 1 {
            return self.smallest(goal);
        }
        for _ in 0..8 {
            let form = *self.random.pick(self.forms);
            let made = match form {
                Form::Variable => self.variable(goal).filter(|_| fuel <= LEAF_FUEL),
                Form::Introduction => self.introduction(goal, fuel - 1),
                Form::Call => self.call(goal, fuel - 1),
                Form::Let => Some(self.let_in(goal, fuel - 1)),
                Form::Application => self.application(goal, fuel - 1),
                Form::Projection => self.projection(goal, fuel - 1),
                Form::Case => self.case(goal, fuel - 1),
                Form::UnusedLet => self.unused_let(goal, fuel - 1),
            };
            if let Some(term) = made {
                return term;
            }
        }
        self.let_in(goal, fuel - 1)
    }

    /// A variable if there is one, else a value built of small parts.
    fn smallest(&mut self, goal: u32) -> Term {
        if self.random.chance(25) {
            if let Some(term) = self.constant(goal) {
                return term;
            }
        }
        self.variable(goal)
            .or_else(|| self.introduction(goal, 0))
            .or_else(|| self.constant(goal))
            .expect("each base type has an input or a call without arguments")
    }

    /// A random variable of the goal type, more often an inner one.
    fn variable(&mut self, goal: u32) -> Option<Term> {
        let in_scope = self.scope.iter().rev().chain(&self.tables.inputs);
        let numbers: Vec<u32> = (0..)
            .zip(in_scope)
            .filter(|&(_, &type_number)| type_number == goal)
            .map(|(number, _)| number)
            .collect();
        if numbers.is_empty() {
            return None;
        }
        let number = if self.random.chance(50) {
            numbers[0]
        } else {
            *self.random.pick(&numbers)
        };
        Some(Term::Variable(number))
    }

    /// A call without arguments.
    fn constant(&mut self, goal: u32) -> Option<Term> {
        let numbers = self.calls(goal, |arguments| arguments == 0);
        let number = *numbers.get(self.random.below(numbers.len()))?;
        Some(Term::Call(number, Vec::new()))
    }

    /// A function, pair, injection or unit; none for a base type.
    fn introduction(&mut self, goal: u32, fuel: usize) -> Option<Term> {
        match self.tables.type_at(goal) {
            Type::Base(_) => None,
            Type::Unit => (fuel < LEAF_FUEL).then_some(Term::Unit(goal)),
            Type::Function(domain, codomain) => {
                let body = self.under(domain, codomain, fuel);
                Some(Term::Function(goal, body))
            }
            Type::Product(left, right) => {
                let (left_fuel, right_fuel) = self.split(fuel);
                let left = self.boxed(left, left_fuel);
                Some(Term::Pair(goal, left, self.boxed(right, right_fuel)))
            }
            Type::Sum(left, right) => Some(if self.random.chance(50) {
                Term::Left(goal, self.boxed(left, fuel))
            } else {
                Term::Right(goal, self.boxed(right, fuel))
            }),
        }
    }

    fn call(&mut self, goal: u32, fuel: usize) -> Option<Term> {
        let numbers = self.calls(goal, |arguments| arguments > 0 || fuel < LEAF_FUEL);
        let number = *numbers.get(self.random.below(numbers.len()))?;
        Some(self.call_of(number, fuel))
    }

    fn call_of(&mut self, number: u32, fuel: usize) -> Term {
        let tables = self.tables;
        let mut remaining = fuel;
        let mut arguments = Vec::new();
        for &argument in &tables.signatures[number as usize].arguments {
            let (here, rest) = self.split(remaining);
            arguments.push(self.term(argument, here));
            remaining = rest;
        }
        Term::Call(number, arguments)
    }

    /// A let, most often of a helper function.
    fn let_in(&mut self, goal: u32, fuel: usize) -> Term {
        let helpers = self.types_where(|t| matches!(t, Type::Function(..)));
        let bound_type = if helpers.is_empty() || self.random.chance(45) {
            self.random.below(self.tables.types.len()) as u32
        } else {
            *self.random.pick(&helpers)
        };
        let (bound_fuel, body_fuel) = self.split(fuel);
        let bound = self.boxed(bound_type, bound_fuel);
        Term::Let(bound, self.under(bound_type, goal, body_fuel))
    }

    fn application(&mut self, goal: u32, fuel: usize) -> Option<Term> {
        let heads = self.types_where(|t| matches!(t, Type::Function(_, right) if *right == goal));
        let head_type = *heads.get(self.random.below(heads.len()))?;
        let (domain, _) = self.tables.type_at(head_type).parts()?;
        let (head_fuel, operand_fuel) = self.split(fuel);
        let head = match self.variable(head_type).filter(|_| self.random.chance(60)) {
            Some(helper) => Box::new(helper),
            None => self.boxed(head_type, head_fuel),
        };
        Some(Term::Application(head, self.boxed(domain, operand_fuel)))
    }

    fn projection(&mut self, goal: u32, fuel: usize) -> Option<Term> {
        let products = self.types_where(
            |t| matches!(t, Type::Product(left, right) if *left == goal || *right == goal),
        );
        let product = *products.get(self.random.below(products.len()))?;
        let (left, right) = self.tables.type_at(product).parts()?;
        let operand = self.boxed(product, fuel);
        let takes_first = left == goal && (right != goal || self.random.chance(50));
        Some(if takes_first {
            Term::First(operand)
        } else {
            Term::Second(operand)
        })
    }

    fn case(&mut self, goal: u32, fuel: usize) -> Option<Term> {
        let sums = self.types_where(|t| matches!(t, Type::Sum(..)));
        let sum = *sums.get(self.random.below(sums.len()))?;
        let (left, right) = self.tables.type_at(sum).parts()?;
        let (subject_fuel, rest) = self.split(fuel);
        let (left_fuel, right_fuel) = self.split(rest);
        let subject = match self.variable(sum).filter(|_| self.random.chance(60)) {
            Some(variable) => Box::new(variable),
            None => self.boxed(sum, subject_fuel),
        };
        let left_branch = self.under(left, goal, left_fuel);
        let right_branch = self.under(right, goal, right_fuel);
        Some(Term::Case(subject, left_branch, right_branch))
    }

    /// A let of a computation over a part that does not use it.
    fn unused_let(&mut self, goal: u32, fuel: usize) -> Option<Term> {
        let (bound_fuel, body_fuel) = self.split(fuel);
        let bound = self.computation(bound_fuel)?;
        let mut body = self.boxed(goal, body_fuel);
        raise(&mut body, 1, 0);
        Some(Term::Let(Box::new(bound), body))
    }

    /// A call, an application of a variable, a projection or a case, of any type.
    fn computation(&mut self, fuel: usize) -> Option<Term> {
        let any_type = self.random.below(self.tables.types.len()) as u32;
        match self.random.below(7) {
            0..3 => {
                let calls = self.tables.signatures.len();
                let number = self.random.below(calls) as u32;
                (calls > 0).then(|| self.call_of(number, fuel))
            }
            3..5 => self.application_of_variable(fuel),
            5 => self.projection(any_type, fuel),
            _ => self.case(any_type, fuel),
        }
    }

    fn application_of_variable(&mut self, fuel: usize) -> Option<Term> {
        let in_scope = self.scope.iter().rev().chain(&self.tables.inputs);
        let functions: Vec<(u32, u32)> = (0..)
            .zip(in_scope)
            .filter_map(|(number, &whole)| match self.tables.type_at(whole) {
                Type::Function(domain, _) => Some((number, domain)),
                _ => None,
            })
            .collect();
        let (number, domain) = *functions.get(self.random.below(functions.len()))?;
        let head = Box::new(Term::Variable(number));
        Some(Term::Application(head, self.boxed(domain, fuel)))
    }

    fn boxed(&mut self, goal: u32, fuel: usize) -> Box<Term> {
        Box::new(self.term(goal, fuel))
    }

    /// A part under a binder of this type.
    fn under(&mut self, binder: u32, goal: u32, fuel: usize) -> Box<Term> {
        self.scope.push(binder);
        let part = self.boxed(goal, fuel);
        self.scope.pop();
        part
    }

    fn split(&mut self, fuel: usize) -> (usize, usize) {
        let left = self.random.between(0, fuel);
        (left, fuel - left)
    }

    /// Numbers of the calls with this result and a number of arguments that is `wanted`.
    fn calls(&self, result: u32, wanted: impl Fn(usize) -> bool) -> Vec<u32> {
        (0..)
            .zip(&self.tables.signatures)
            .filter(|(_, call)| call.result == result && wanted(call.arguments.len()))
            .map(|(number, _)| number)
            .collect()
    }

    fn types_where(&self, wanted: impl Fn(&Type) -> bool) -> Vec<u32> {
        (0..)
            .zip(&self.tables.types)
            .filter(|(_, entry)| wanted(entry))
            .map(|(number, _)| number)
            .collect()
    }
}
