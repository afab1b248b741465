//! Lines of `ends SEED COUNT`: any words over any call words, with the end of the part at the front.
//!
//! One list of words a line: `calls;words;end`. The call words and the words are decimal and
//! separated by spaces; the end is the number of words which are the term at the front, or `-` if no
//! term stands there.

use super::cases::small_sample;
use super::{spaced, Additions};
use crate::generate::ends::{any_words, AnyWords};
use crate::random::Random;
use oracle::ends::front_length;

/// The most words in a line besides the call words.
const MOST_WORDS: usize = 40;

/// The line of one random list of words.
pub fn ends_line(random: &mut Random, additions: Additions) -> String {
    let AnyWords { calls, words } = short(random, additions);
    let end = front_length(&words, &calls);
    let end = end.map_or(String::from("-"), |end| end.to_string());
    [spaced(&calls), spaced(&words), end].join(";")
}

/// At most 40 words.
fn short(random: &mut Random, additions: Additions) -> AnyWords {
    loop {
        let sample = small_sample(random, additions);
        let any = any_words(random, &sample);
        if any.words.len() <= MOST_WORDS {
            return any;
        }
    }
}
