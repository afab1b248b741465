//! Readings of the loop that finds the end of the part at the front: the right one, and wrong ones.

use oracle::tables::Signature;
use oracle::words::*;

/// The end of the part at the front of the words, over the call words.
pub type Loop = fn(&[u64], &[u64]) -> Option<usize>;
/// The number of arguments by the count in the call word, which is none past the call table.
type Arguments = fn(Option<u64>) -> Option<usize>;

fn kind(word: u64) -> u64 {
    unpack_term(word).0
}

/// The call word that a call names.
fn named(word: u64, calls: &[u64]) -> Option<u64> {
    let (_, number, _) = unpack_term(word);
    calls.get(number as usize).copied()
}

fn is_malformed(count: u64) -> bool {
    count & 4 != 0
}

fn arguments(count: Option<u64>) -> Option<usize> {
    let count = count.filter(|&count| !is_malformed(count))?;
    Some((count & 3) as usize)
}

/// The parts of a node with this word, with calls read so.
fn parts(
    word: u64,
    calls: &[u64],
    arguments: impl Fn(Option<u64>) -> Option<usize>,
) -> Option<usize> {
    match kind(word) {
        CALL => arguments(named(word, calls).map(|signature| signature >> 60)),
        kind => [0, 0, 1, 2, 2, 2, 1, 1, 1, 1, 3, 0]
            .get(kind as usize)
            .copied(),
    }
}

/// The loop over these parts, which starts with so many owed and stops with so many.
fn owing(
    start: usize,
    stop: usize,
    words: &[u64],
    parts: impl Fn(u64) -> Option<usize>,
) -> Option<usize> {
    let mut owed = start;
    for (index, &word) in words.iter().enumerate() {
        owed = owed + parts(word)? - 1;
        if owed <= stop {
            return Some(index + 1);
        }
    }
    None
}

/// The reading of the request, written a second time.
pub fn right(words: &[u64], calls: &[u64]) -> Option<usize> {
    calls_as(arguments, words, calls)
}

/// With calls read so.
fn calls_as(arguments: Arguments, words: &[u64], calls: &[u64]) -> Option<usize> {
    owing(1, 0, words, |word| parts(word, calls, arguments))
}

/// With so many parts of each node that has one of these kinds.
fn kinds_as(kinds: &[u64], number: Option<usize>, words: &[u64], calls: &[u64]) -> Option<usize> {
    owing(1, 0, words, |word| match kinds.contains(&kind(word)) {
        true => number,
        false => parts(word, calls, arguments),
    })
}

/// With malformed counts read so.
fn malformed_as(read: fn(u64) -> u64, words: &[u64], calls: &[u64]) -> Option<usize> {
    let arguments = |count: Option<u64>| match count {
        Some(count) if is_malformed(count) => Some(read(count) as usize),
        _ => arguments(count),
    };
    owing(1, 0, words, |word| parts(word, calls, arguments))
}

/// With the counts of acting calls read so.
fn acting_as(read: fn(u64) -> Option<usize>, words: &[u64], calls: &[u64]) -> Option<usize> {
    let arguments = |count: Option<u64>| match count {
        Some(count @ 8..=11) => read(count),
        _ => arguments(count),
    };
    owing(1, 0, words, |word| parts(word, calls, arguments))
}

/// Whether all fields of a term word that have no meaning are zero.
fn is_plain(word: u64) -> bool {
    let (kind, number, type_number) = unpack_term(word);
    match kind {
        VARIABLE | CALL => type_number == 0,
        FUNCTION | PAIR | LEFT | RIGHT | UNIT => number == 0,
        _ => number == 0 && type_number == 0,
    }
}

/// The end, if the words up to it are all as wanted.
fn right_if(words: &[u64], calls: &[u64], wanted: impl Fn(u64) -> bool) -> Option<usize> {
    right(words, calls).filter(|&end| words[..end].iter().all(|&word| wanted(word)))
}

/// Each with its name and the lists of words that it must at least differ on.
pub const WRONG: [(&str, usize, Loop); 26] = [
    ("one part is left owed", 5000, |words, calls| {
        owing(1, 1, words, |word| parts(word, calls, arguments))
    }),
    ("two parts are owed at first", 4000, |words, calls| {
        owing(2, 0, words, |word| parts(word, calls, arguments))
    }),
    ("the words' end is the part's", 2000, |words, calls| {
        let known = |&word: &u64| parts(word, calls, arguments).is_some();
        right(words, calls).or(words.iter().all(known).then_some(words.len()))
    }),
    ("no words are a part", 600, |words, calls| {
        words.is_empty().then_some(0).or(right(words, calls))
    }),
    ("words behind the end: none", 2000, |words, calls| {
        right(words, calls).filter(|&end| end == words.len())
    }),
    ("unknown words behind the end: none", 700, |words, calls| {
        let known = |&word: &u64| parts(word, calls, arguments).is_some();
        right(words, calls).filter(|_| words.iter().all(known))
    }),
    ("fields without meaning set: none", 1500, |words, calls| {
        right_if(words, calls, is_plain)
    }),
    ("call words' other fields set: none", 400, |words, calls| {
        let is_signature = |word| named(word, calls).and_then(Signature::from_word).is_some();
        right_if(words, calls, |word| {
            kind(word) != CALL || is_signature(word)
        })
    }),
    ("an unknown kind is a leaf", 1000, |words, calls| {
        kinds_as(&[12, 13, 14, 15], Some(0), words, calls)
    }),
    ("a unit is unknown", 1000, |words, calls| {
        kinds_as(&[UNIT], None, words, calls)
    }),
    ("a unit owes a part", 1000, |words, calls| {
        kinds_as(&[UNIT], Some(1), words, calls)
    }),
    ("a case owes two parts", 1500, |words, calls| {
        kinds_as(&[CASE], Some(2), words, calls)
    }),
    ("a let owes one part", 2500, |words, calls| {
        kinds_as(&[LET], Some(1), words, calls)
    }),
    ("a pair or an application owes one", 2000, |words, calls| {
        kinds_as(&[PAIR, APPLICATION], Some(1), words, calls)
    }),
    ("a function is a leaf", 2000, |words, calls| {
        kinds_as(&[FUNCTION], Some(0), words, calls)
    }),
    ("a half or an injection is a leaf", 2500, |words, calls| {
        kinds_as(&[FIRST, SECOND, LEFT, RIGHT], Some(0), words, calls)
    }),
    ("a call's arguments are not owed", 1200, |words, calls| {
        calls_as(|count| arguments(count).map(|_| 0), words, calls)
    }),
    ("a call past the table is a leaf", 700, |words, calls| {
        calls_as(|count| arguments(Some(count.unwrap_or(0))), words, calls)
    }),
    ("the last call is past the table", 500, |words, calls| {
        right(words, &calls[..calls.len().saturating_sub(1)])
    }),
    ("a malformed count is a leaf", 400, |words, calls| {
        malformed_as(|_| 0, words, calls)
    }),
    ("a malformed count as it is", 100, |words, calls| {
        malformed_as(|count| count, words, calls)
    }),
    ("a malformed count, 12 to 15 less 8", 100, |words, calls| {
        malformed_as(|count| count % 8, words, calls)
    }),
    ("a malformed count's low two bits", 200, |words, calls| {
        malformed_as(|count| count % 4, words, calls)
    }),
    ("an acting call is unknown", 300, |words, calls| {
        acting_as(|_| None, words, calls)
    }),
    ("an acting call is a leaf", 300, |words, calls| {
        acting_as(|_| Some(0), words, calls)
    }),
    ("an acting call owes 8 to 11 parts", 300, |words, calls| {
        acting_as(|count| Some(count as usize), words, calls)
    }),
];
