//! Lines of `runs SEED COUNT`: small terms that meet demand 3's premise, with one run of each.
//!
//! One run a line: `types;calls;inputs;term;input values;answer;trace`. The tables are decimal
//! words separated by spaces. A value is written in prefix order as tokens separated by spaces:
//! `n K` is the number K, `p A B` a pair, `l A` and `r A` are injections, `u` is the unit; the input
//! values follow one another. The trace is `call-number:argument,argument` for each call made, in
//! order, separated by `|`.
//!
//! The answering function is fixed. For call k with some arguments let S be the sum of all
//! numbers in the arguments, with 1 for each left and 2 for each right injection and 3 for each unit
//! in them, and N = (7k + 3S + 1) mod 5. The answer at a base type is N; at the unit type the unit; at
//! a product the pair of the answers at both parts; at a sum, the left injection of the answer at the
//! left part if N is even, else the right injection of the answer at the right part.

use super::{spaced, Additions, LONGEST_TERM};
use crate::generate::terms::random_sample;
use crate::generate::values::{random_inputs, FixedAnswers};
use crate::generate::Profile;
use crate::random::Random;
use oracle::run::{run, CallRecord, Value};

const FUEL: u64 = 1000;
const LONGEST_TRACE: usize = 20;

/// The line of one random run.
pub fn run_line(random: &mut Random, additions: Additions) -> String {
    let profile = additions.to(Profile::SMALL.first_order());
    loop {
        let sample = random_sample(random, &profile);
        let Ok(checked) = sample.examine() else {
            continue;
        };
        let inputs = random_inputs(random, &checked.tables);
        let answering = FixedAnswers {
            tables: &checked.tables,
        };
        let Ok(run) = run(&checked.term, &inputs, &answering, FUEL) else {
            continue;
        };
        if sample.term.len() > LONGEST_TERM || run.trace.len() > LONGEST_TRACE {
            continue;
        }
        if additions.acting && !sample.names_acting_call() {
            continue;
        }
        let trace: Vec<String> = run.trace.iter().map(call_text).collect();
        return [
            spaced(&sample.types),
            spaced(&sample.calls),
            spaced(&sample.inputs),
            spaced(&sample.term),
            spaced(inputs.iter().map(value_text)),
            value_text(&run.answer),
            trace.join("|"),
        ]
        .join(";");
    }
}

fn call_text(record: &CallRecord) -> String {
    let arguments: Vec<String> = record.arguments.iter().map(value_text).collect();
    format!("{}:{}", record.call, arguments.join(","))
}

fn value_text(value: &Value) -> String {
    match value {
        Value::Number(number) => format!("n {number}"),
        Value::Pair(halves) => format!("p {} {}", value_text(&halves.0), value_text(&halves.1)),
        Value::Left(value) => format!("l {}", value_text(value)),
        Value::Right(value) => format!("r {}", value_text(value)),
        Value::Closure(..) => String::from("f"),
        Value::Unit => String::from("u"),
    }
}
