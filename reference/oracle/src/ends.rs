//! The end of the part at the front of any words over any call words; nothing is checked before.
//! Twice: off the tree that is read, and by a loop (request P5 of paper 02).

use crate::coding::decode_front;
use crate::deep_stack::with_deep_stack;
use crate::term::Term;
use crate::words::*;

/// The term that the first words are, and how many they are; `None` if no first words are one term.
/// Reading recurses to the term's depth.
pub fn front(words: &[u64], calls: &[u64]) -> Option<(Term, usize)> {
    let arguments = |number: u32| {
        let (count, _, _) = unpack_call(*calls.get(number as usize)?);
        read_count(count).map(|(arguments, _)| arguments)
    };
    let mut remaining = words.iter();
    let term = decode_front(&mut remaining, &arguments)?;
    Some((term, words.len() - remaining.len()))
}

/// How many words `front` reads.
pub fn front_length(words: &[u64], calls: &[u64]) -> Option<usize> {
    with_deep_stack(|| front(words, calls).map(|(_, length)| length))
}

/// The same number by a loop: it stops when no part is owed or the words run out.
pub fn part_end(words: &[u64], calls: &[u64]) -> Option<usize> {
    let (mut owed, mut end) = (1, 0);
    while owed > 0 && end < words.len() {
        owed = owed - 1 + part_count(words[end], calls)?;
        end += 1;
    }
    (owed == 0).then_some(end)
}

/// How many parts the node of this word has; `None` if that is not known.
fn part_count(word: u64, calls: &[u64]) -> Option<usize> {
    let (kind, number, _) = unpack_term(word);
    match kind {
        VARIABLE | UNIT => Some(0),
        CALL => match calls.get(number as usize)? >> 60 {
            count @ 0..=3 => Some(count as usize),
            count @ 8..=11 => Some(count as usize - 8),
            _ => None,
        },
        FUNCTION | FIRST..=RIGHT => Some(1),
        APPLICATION..=PAIR => Some(2),
        CASE => Some(3),
        _ => None,
    }
}
