//! What the test program writes for a record.
//!
//! Call 0: the listing. Call 1: `check REFUSAL TYPE`. Call 2: `normal REFUSAL YES`, where YES is 0
//! or 1. Calls 3 and 5: `normalize REFUSAL TYPE LENGTH`, ten counts and a digest of the buffers.
//! Call 4: `inputs REFUSAL COUNT` and the four words of marks, sixteen hexadecimal digits each.

use super::records::Record;
use crate::generate::limits::Limits;
use crate::generate::Sample;
use oracle::api::{Answer, Normalize};
use oracle::dialect::Dialect;
use oracle::free_inputs::{FindFreeInputs, FreeInputs};

/// The bytes written for a record.
pub fn answer(record: &Record) -> Vec<u8> {
    answer_in(Dialect::CURRENT, record)
}

/// The same in any dialect.
pub fn answer_in(dialect: Dialect, record: &Record) -> Vec<u8> {
    let line = match record {
        Record::Respond(bundle) => return dialect.respond(bundle),
        Record::Check(sample) => {
            let answer = sample.check_in(dialect);
            format!("check {} {}\n", answer.refusal, answer.type_number)
        }
        Record::IsNormal(sample) => {
            let answer = sample.is_normal_in(dialect);
            format!("normal {} {}\n", answer.refusal, u8::from(answer.normal))
        }
        Record::Normalize(sample, limits) => line_of_normalize(*limits, |buffers| {
            sample.normalize_in(dialect, limits.settings, buffers)
        }),
        Record::FreeInputs(sample) => line_of_free_inputs(sample.free_inputs_in(dialect)),
    };
    line.into_bytes()
}

/// The line for calls 3 and 5, by any implementation of it.
pub fn normalize_line(normalize: Normalize, sample: &Sample, limits: Limits) -> String {
    line_of_normalize(limits, |buffers| {
        sample.normalize(normalize, limits.settings, buffers)
    })
}

/// The line for calls 3 and 5 and what they leave in the buffers.
fn line_of_normalize(
    limits: Limits,
    normalize: impl FnOnce(&mut [Vec<u64>; 3]) -> Answer,
) -> String {
    let [output, first, second] = limits.lengths;
    let mut buffers = [
        filled(output, 1_000_003, 7),
        filled(first, 31, 1),
        filled(second, 17, 5),
    ];
    let answer = normalize(&mut buffers);
    let counts: String = answer.counts.iter().map(|n| format!("{n} ")).collect();
    format!(
        "normalize {} {} {} {counts}{:016x}\n",
        answer.refusal,
        answer.type_number,
        answer.length,
        digest(buffers.iter().flatten())
    )
}

/// The line for call 4, by any implementation of it.
pub fn free_inputs_line(free_inputs: FindFreeInputs, sample: &Sample) -> String {
    line_of_free_inputs(sample.free_inputs(free_inputs))
}

fn line_of_free_inputs(answer: FreeInputs) -> String {
    let [first, second, third, fourth] = answer.marks;
    format!(
        "inputs {} {} {first:016x} {second:016x} {third:016x} {fourth:016x}\n",
        answer.refusal, answer.count
    )
}

/// What a buffer holds before the call: `factor · index + offset`.
fn filled(length: usize, factor: u64, offset: u64) -> Vec<u64> {
    (0..length as u64).map(|i| factor * i + offset).collect()
}

/// A digest of words (FNV-1a's constants, taken word by word).
fn digest<'a>(words: impl Iterator<Item = &'a u64>) -> u64 {
    words.fold(14_695_981_039_346_656_037, |hash: u64, word| {
        (hash ^ word).wrapping_mul(1_099_511_628_211)
    })
}
