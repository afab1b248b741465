//! The grammar of terms, read off the papers: a node's word, and behind it as many terms as the node
//! has parts. Where one part ends and the next starts is tried out.

/// The number of parts by kind; calls have those of their call word.
const PARTS: [usize; 12] = [0, 0, 1, 2, 2, 2, 1, 1, 1, 1, 3, 0];
const CALL: usize = 1;

fn parts(word: u64, calls: &[u64]) -> Option<usize> {
    let (kind, number) = ((word >> 60) as usize, (word << 4 >> 34) as usize);
    if kind != CALL {
        return PARTS.get(kind).copied();
    }
    let count = (calls.get(number)? >> 60) as usize;
    [0, 1, 2, 3]
        .into_iter()
        .find(|n| [*n, n + 8].contains(&count))
}

/// Whether all the words are one term.
pub fn is_term(words: &[u64], calls: &[u64]) -> bool {
    let Some((&word, rest)) = words.split_first() else {
        return false;
    };
    parts(word, calls).is_some_and(|count| are_terms(rest, count, calls))
}

/// Whether all the words are so many terms, one behind the other.
fn are_terms(words: &[u64], count: usize, calls: &[u64]) -> bool {
    if count == 0 {
        return words.is_empty();
    }
    (1..=words.len()).any(|end| {
        let (one, rest) = words.split_at(end);
        is_term(one, calls) && are_terms(rest, count - 1, calls)
    })
}
