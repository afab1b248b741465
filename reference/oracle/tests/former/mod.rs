//! The bounded walk and the call as they were before there were ceilings.

use oracle::api::{Answer, LARGEST_CAPACITY};
use oracle::checks::{examine, Refusal, LONGEST_TO_NORMALIZE};
use oracle::coding::encode;
use oracle::deep_stack::with_deep_stack;
use oracle::reduction::{grown, step, Counts, Stopped};
use oracle::rules::{growth, PHASES};
use oracle::search::first_redex;
use oracle::tables::Tables;
use oracle::term::Term;
use tools::generate::Sample;

/// Walks within a budget of steps and a capacity of words.
pub fn former_walk(
    tables: &Tables,
    mut term: Term,
    budget: u32,
    capacity: usize,
) -> Result<(Term, Counts), Stopped> {
    let mut counts = [0; 10];
    let mut steps = 0;
    let mut size = term.size();
    let stop = |refusal, counts| Err(Stopped { refusal, counts });
    if size > capacity {
        return stop(Refusal::Capacity, counts);
    }
    for phase in PHASES {
        while let Some(redex) = first_redex(tables, &term, phase) {
            if steps == budget {
                return stop(Refusal::Budget, counts);
            }
            let next_size = grown(size, growth(redex.rule, term.node_mut(redex.index)));
            if next_size > capacity {
                return stop(Refusal::Capacity, counts);
            }
            step(&mut term, redex);
            size = next_size;
            steps += 1;
            counts[redex.rule as usize] += 1;
        }
    }
    Ok((term, counts))
}

/// The answer and the normal form's words, none if it is refused.
fn former_answer(sample: &Sample, budget: u32, capacity: usize) -> (Answer, Vec<u64>) {
    let Sample {
        types,
        calls,
        inputs,
        term,
    } = sample;
    let checked = match examine(types, calls, inputs, term, LONGEST_TO_NORMALIZE) {
        Ok(checked) => checked,
        Err(refusal) => return (Answer::refused(refusal, [0; 10]), Vec::new()),
    };
    match former_walk(&checked.tables, checked.term, budget, capacity) {
        Ok((normal_form, counts)) => {
            let words = encode(&normal_form);
            let answer = Answer {
                refusal: 0,
                type_number: checked.type_number,
                length: words.len(),
                counts,
            };
            (answer, words)
        }
        Err(stopped) => (Answer::refused(stopped.refusal, stopped.counts), Vec::new()),
    }
}

/// The former call, over the output and the two scratch buffers.
pub fn former_normalize(sample: &Sample, budget: u32, buffers: &mut [Vec<u64>; 3]) -> Answer {
    let lengths = buffers.iter().map(Vec::len);
    let shortest = lengths.min().expect("there are three buffers");
    let capacity = shortest.min(LARGEST_CAPACITY);
    let (answer, words) = with_deep_stack(|| former_answer(sample, budget, capacity));
    let [output, first_scratch, second_scratch] = buffers;
    output[..words.len()].copy_from_slice(&words);
    first_scratch.fill(0);
    second_scratch.fill(0);
    answer
}
