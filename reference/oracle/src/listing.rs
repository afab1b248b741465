//! The program: a bundle's bytes in, the listing's bytes out.

use crate::api::{Answer, LARGEST_CAPACITY};
use crate::bundle::read_bundle;
use crate::checks::Refusal;
use crate::dialect::Dialect;
use crate::settings::Settings;

/// The settings of the program.
pub const SETTINGS: Settings = Settings::no_ceilings(1_000_000);

/// Writes the listing to the front of `text` and answers its length. If `text` is too short, or
/// there are fewer `words` than an accepted answer's length, it answers 0 and `text` is unchanged.
pub fn listing(answer: &Answer, words: &[u64], text: &mut [u8]) -> usize {
    let Some(lines) = listing_lines(answer, words) else {
        return 0;
    };
    match text.get_mut(..lines.len()) {
        Some(front) => {
            front.copy_from_slice(lines.as_bytes());
            lines.len()
        }
        None => 0,
    }
}

/// The status line, then one word a line if accepted; `None` if there are too few words.
fn listing_lines(answer: &Answer, words: &[u64]) -> Option<String> {
    let (mut lines, words) = match answer.refusal {
        0 => (
            format!("ok {} {}", answer.type_number, answer.length),
            words.get(..answer.length)?,
        ),
        refusal => (format!("no {refusal}"), &[][..]),
    };
    for count in answer.counts {
        lines.push_str(&format!(" {count}"));
    }
    lines.push('\n');
    for word in words {
        lines.push_str(&format!("{word:016x}\n"));
    }
    Some(lines)
}

/// The program's output for these bytes of standard input.
pub fn respond(bytes: &[u8]) -> Vec<u8> {
    Dialect::CURRENT.respond(bytes)
}

impl Dialect {
    /// The same in any dialect.
    pub fn respond(self, bytes: &[u8]) -> Vec<u8> {
        let mut words = vec![0; LARGEST_CAPACITY];
        let mut output = vec![0; LARGEST_CAPACITY];
        let lengths = read_bundle(bytes, &mut words);
        let answer = if lengths.refusal == 0 {
            let (types, rest) = words.split_at(lengths.types);
            let (calls, rest) = rest.split_at(lengths.calls);
            let (inputs, rest) = rest.split_at(lengths.inputs);
            let term = &rest[..lengths.term];
            let mut first_scratch = vec![0; LARGEST_CAPACITY];
            let mut second_scratch = vec![0; LARGEST_CAPACITY];
            let buffers = [&mut output[..], &mut first_scratch, &mut second_scratch];
            self.normalize(types, calls, inputs, term, SETTINGS, buffers)
        } else {
            Answer::refused(Refusal::Bundle, [0; 10])
        };
        let lines = listing_lines(&answer, &output);
        lines
            .expect("the output holds the normal form")
            .into_bytes()
    }
}
