//! Random values of function-free types, and answering functions.

use crate::random::Random;
use oracle::run::{Answering, Value};
use oracle::tables::{Tables, Type};
use std::rc::Rc;

/// A random value of a type without functions in it.
pub fn random_value<'t>(random: &mut Random, tables: &Tables, type_number: u32) -> Value<'t> {
    match tables.type_at(type_number) {
        Type::Product(left, right) => {
            let left = random_value(random, tables, left);
            let right = random_value(random, tables, right);
            Value::Pair(Rc::new((left, right)))
        }
        Type::Sum(left, right) => {
            if random.chance(50) {
                Value::Left(Rc::new(random_value(random, tables, left)))
            } else {
                Value::Right(Rc::new(random_value(random, tables, right)))
            }
        }
        Type::Base(_) => Value::Number(random.below(10) as u64),
        Type::Unit => Value::Unit,
        Type::Function(..) => panic!("values of function types are not generated"),
    }
}

/// Random values for all inputs.
pub fn random_inputs<'t>(random: &mut Random, tables: &Tables) -> Vec<Value<'t>> {
    let inputs = tables.inputs.iter();
    inputs
        .map(|&number| random_value(random, tables, number))
        .collect()
}

/// Answers drawn from a hash of seed, call number and argument values.
pub struct HashedAnswers<'a> {
    pub tables: &'a Tables,
    pub seed: u64,
}

impl Answering for HashedAnswers<'_> {
    fn answer<'t>(&self, call: u32, arguments: &[Value<'t>]) -> Value<'t> {
        let mut hash = mix(self.seed, u64::from(call));
        for argument in arguments {
            hash = hash_value(hash, argument);
        }
        let result = self.tables.signatures[call as usize].result;
        random_value(&mut Random::new(hash), self.tables, result)
    }
}

fn hash_value(hash: u64, value: &Value) -> u64 {
    match value {
        Value::Number(number) => mix(mix(hash, 1), *number),
        Value::Pair(halves) => hash_value(hash_value(mix(hash, 2), &halves.0), &halves.1),
        Value::Left(value) => hash_value(mix(hash, 3), value),
        Value::Right(value) => hash_value(mix(hash, 4), value),
        Value::Closure(..) => mix(hash, 5),
        Value::Unit => mix(hash, 6),
    }
}

fn mix(hash: u64, item: u64) -> u64 {
    Random::new(hash ^ item.rotate_left(32)).bits()
}

/// The fixed answering function of the `runs` lines: one number from call and arguments, spread
/// over the result type.
pub struct FixedAnswers<'a> {
    pub tables: &'a Tables,
}

impl Answering for FixedAnswers<'_> {
    fn answer<'t>(&self, call: u32, arguments: &[Value<'t>]) -> Value<'t> {
        let sum: u64 = arguments.iter().map(digit_sum).sum();
        let number = (7 * u64::from(call) + 3 * sum + 1) % 5;
        let result = self.tables.signatures[call as usize].result;
        self.spread(number, result)
    }
}

impl FixedAnswers<'_> {
    fn spread<'t>(&self, number: u64, type_number: u32) -> Value<'t> {
        match self.tables.type_at(type_number) {
            Type::Product(left, right) => Value::Pair(Rc::new((
                self.spread(number, left),
                self.spread(number, right),
            ))),
            Type::Sum(left, right) => match number % 2 {
                0 => Value::Left(Rc::new(self.spread(number, left))),
                _ => Value::Right(Rc::new(self.spread(number, right))),
            },
            Type::Base(_) => Value::Number(number),
            Type::Unit => Value::Unit,
            Type::Function(..) => panic!("no call answers a function"),
        }
    }
}

/// The sum of all numbers in a value, with 1 for each left and 2 for each right injection, and 3 for
/// each unit; each number counts modulo 5, which is all that matters to the answer.
fn digit_sum(value: &Value) -> u64 {
    match value {
        Value::Number(number) => number % 5,
        Value::Pair(halves) => digit_sum(&halves.0) + digit_sum(&halves.1),
        Value::Left(value) => 1 + digit_sum(value),
        Value::Right(value) => 2 + digit_sum(value),
        Value::Unit => 3,
        Value::Closure(..) => panic!("no call takes a function"),
    }
}
