//! Runs: call-by-value, left to right, with closures and a trace (the paper's list of calls).

use crate::term::Term;
use std::rc::Rc;

/// What a term evaluates to. Base types hold natural numbers.
#[derive(Clone, Debug, PartialEq)]
pub enum Value<'t> {
    Number(u64),
    Pair(Rc<(Value<'t>, Value<'t>)>),
    Left(Rc<Value<'t>>),
    Right(Rc<Value<'t>>),
    Closure(&'t Term, Environment<'t>),
    /// The only value of the unit type.
    Unit,
}

/// The values in scope, the innermost binder's first, then the inputs'.
#[derive(Clone, Debug, PartialEq)]
pub struct Environment<'t>(Option<Rc<(Value<'t>, Environment<'t>)>>);

impl<'t> Environment<'t> {
    fn of_inputs(inputs: &[Value<'t>]) -> Environment<'t> {
        let empty = Environment(None);
        let innermost_last = inputs.iter().rev();
        innermost_last.fold(empty, |scope, value| scope.with(value.clone()))
    }

    fn with(&self, value: Value<'t>) -> Environment<'t> {
        Environment(Some(Rc::new((value, self.clone()))))
    }

    fn get(&self, number: u32) -> Value<'t> {
        let mut scope = self;
        for _ in 0..number {
            scope = &scope.innermost().1;
        }
        scope.innermost().0.clone()
    }

    fn innermost(&self) -> &(Value<'t>, Environment<'t>) {
        let entry = self.0.as_deref();
        entry.expect("a variable names a binder or an input")
    }
}

/// The answering function: from a call's number and argument values alone.
pub trait Answering {
    fn answer<'t>(&self, call: u32, arguments: &[Value<'t>]) -> Value<'t>;
}

/// A call made, with its argument values.
#[derive(Clone, Debug, PartialEq)]
pub struct CallRecord<'t> {
    pub call: u32,
    pub arguments: Vec<Value<'t>>,
}

/// A run that ended.
#[derive(Clone, Debug, PartialEq)]
pub struct Run<'t> {
    pub answer: Value<'t>,
    pub trace: Vec<CallRecord<'t>>,
}

/// The guard for tests: the run was not ended within its fuel.
#[derive(Clone, Copy, Debug, PartialEq, Eq)]
pub struct OutOfFuel;

const DEEPEST: usize = 200_000;

/// Runs a well-typed term on input values of their types; `fuel` bounds the number of nodes
/// evaluated.
pub fn run<'t>(
    term: &'t Term,
    inputs: &[Value<'t>],
    answering: &impl Answering,
    fuel: u64,
) -> Result<Run<'t>, OutOfFuel> {
    let mut machine = Machine {
        answering,
        trace: Vec::new(),
        fuel,
        depth: 0,
    };
    let answer = machine.evaluate(term, &Environment::of_inputs(inputs))?;
    Ok(Run {
        answer,
        trace: machine.trace,
    })
}

struct Machine<'a, 't, A> {
    answering: &'a A,
    trace: Vec<CallRecord<'t>>,
    fuel: u64,
    depth: usize,
}

impl<'t, A: Answering> Machine<'_, 't, A> {
    fn evaluate(
        &mut self,
        term: &'t Term,
        scope: &Environment<'t>,
    ) -> Result<Value<'t>, OutOfFuel> {
        if self.fuel == 0 || self.depth == DEEPEST {
            return Err(OutOfFuel);
        }
        self.fuel -= 1;
        self.depth += 1;
        let value = self.evaluate_node(term, scope)?;
        self.depth -= 1;
        Ok(value)
    }

    fn evaluate_node(
        &mut self,
        term: &'t Term,
        scope: &Environment<'t>,
    ) -> Result<Value<'t>, OutOfFuel> {
        match term {
            Term::Variable(number) => Ok(scope.get(*number)),
            Term::Call(call, arguments) => {
                let arguments: Result<Vec<Value>, OutOfFuel> = arguments
                    .iter()
                    .map(|argument| self.evaluate(argument, scope))
                    .collect();
                let arguments = arguments?;
                let answer = self.answering.answer(*call, &arguments);
                self.trace.push(CallRecord {
                    call: *call,
                    arguments,
                });
                Ok(answer)
            }
            Term::Function(_, body) => Ok(Value::Closure(body, scope.clone())),
            Term::Application(head, operand) => {
                let head = self.evaluate(head, scope)?;
                let operand = self.evaluate(operand, scope)?;
                match head {
                    Value::Closure(body, scope) => self.evaluate(body, &scope.with(operand)),
                    other => panic!("{other:?} was applied"),
                }
            }
            Term::Let(bound, body) => {
                let bound = self.evaluate(bound, scope)?;
                self.evaluate(body, &scope.with(bound))
            }
            Term::Pair(_, left, right) => {
                let left = self.evaluate(left, scope)?;
                let right = self.evaluate(right, scope)?;
                Ok(Value::Pair(Rc::new((left, right))))
            }
            Term::First(operand) => match self.evaluate(operand, scope)? {
                Value::Pair(halves) => Ok(halves.0.clone()),
                other => panic!("first of {other:?}"),
            },
            Term::Second(operand) => match self.evaluate(operand, scope)? {
                Value::Pair(halves) => Ok(halves.1.clone()),
                other => panic!("second of {other:?}"),
            },
            Term::Left(_, operand) => Ok(Value::Left(Rc::new(self.evaluate(operand, scope)?))),
            Term::Right(_, operand) => Ok(Value::Right(Rc::new(self.evaluate(operand, scope)?))),
            Term::Case(subject, left, right) => match self.evaluate(subject, scope)? {
                Value::Left(value) => self.evaluate(left, &scope.with((*value).clone())),
                Value::Right(value) => self.evaluate(right, &scope.with((*value).clone())),
                other => panic!("a case on {other:?}"),
            },
            Term::Unit(_) => Ok(Value::Unit),
        }
    }
}
