//! The program: a bundle's bytes in, the listing's bytes out.

use crate::normalize;
use oracle::api::{Answer, LARGEST_CAPACITY};
use oracle::bundle::read_bundle;
use oracle::checks::Refusal;
use oracle::listing::SETTINGS;
use std::io::Write;

/// The program's output for these bytes of standard input.
pub fn respond(bytes: &[u8]) -> Vec<u8> {
    let mut tables = vec![0; LARGEST_CAPACITY];
    let lengths = read_bundle(bytes, &mut tables);
    if lengths.refusal != 0 {
        let answer = Answer::refused(Refusal::Bundle, [0; 10]);
        return listing(&answer, &[]);
    }
    let (types, rest) = tables.split_at(lengths.types);
    let (calls, rest) = rest.split_at(lengths.calls);
    let (inputs, rest) = rest.split_at(lengths.inputs);
    let mut output = vec![0; LARGEST_CAPACITY];
    let mut first_scratch = vec![0; LARGEST_CAPACITY];
    let mut second_scratch = vec![0; LARGEST_CAPACITY];
    let answer = normalize(
        types,
        calls,
        inputs,
        &rest[..lengths.term],
        SETTINGS,
        &mut output,
        &mut first_scratch,
        &mut second_scratch,
    );
    listing(&answer, &output[..answer.length])
}

/// The status line, then one word a line.
fn listing(answer: &Answer, words: &[u64]) -> Vec<u8> {
    let mut text = Vec::with_capacity(128 + 17 * words.len());
    // Writing to a vector does not fail.
    let _ = match answer.refusal {
        0 => write!(text, "ok {} {}", answer.type_number, answer.length),
        refusal => write!(text, "no {refusal}"),
    };
    for count in answer.counts {
        let _ = write!(text, " {count}");
    }
    text.push(b'\n');
    for word in words {
        let digits =
            (0..16).map(|digit| b"0123456789abcdef"[(word >> (60 - 4 * digit) & 15) as usize]);
        text.extend(digits);
        text.push(b'\n');
    }
    text
}
