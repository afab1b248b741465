//! Samples at and just past the length limits.

use super::Sample;
use oracle::words::*;

/// One base type, the calls c (no argument) and d (one argument) and no input.
fn plain(term: Vec<u64>) -> Sample {
    Sample {
        types: vec![pack_type(BASE, 0, 0)],
        calls: vec![pack_call(0, 0, [0; 3]), pack_call(1, 0, [0; 3])],
        inputs: Vec::new(),
        term,
    }
}

/// A well-typed sample with this many base types.
pub fn with_types(count: u64) -> Sample {
    Sample {
        types: (0..count).map(|name| pack_type(BASE, name, 0)).collect(),
        ..plain(vec![pack_term(CALL, 0, 0)])
    }
}

/// A well-typed sample with this many calls, using the last.
pub fn with_calls(count: u64) -> Sample {
    Sample {
        calls: vec![0; count as usize],
        ..plain(vec![pack_term(CALL, count - 1, 0)])
    }
}

/// A well-typed sample with this many inputs, using the last.
pub fn with_inputs(count: u64) -> Sample {
    Sample {
        inputs: vec![0; count as usize],
        ..plain(vec![pack_term(VARIABLE, count - 1, 0)])
    }
}

/// Tables at their limits and one past them, each with the refusal that it gets.
pub fn tables_at_their_limits() -> [(Sample, u32); 6] {
    [
        (with_types(1024), 0),
        (with_types(1025), 1),
        (with_calls(1024), 0),
        (with_calls(1025), 1),
        (with_inputs(256), 0),
        (with_inputs(257), 1),
    ]
}

/// `d (d ... c)`, of this many words: as deep as a term of its length can be.
pub fn nested_calls(words: usize) -> Sample {
    let mut term = vec![pack_term(CALL, 1, 0); words - 1];
    term.push(pack_term(CALL, 0, 0));
    plain(term)
}

/// `let c, let c, ... c` or, if even, `... d v0`, of this many words, 3 or more. No let is used
/// but the last of the even form.
pub fn unused_lets(words: usize) -> Sample {
    let mut term = [pack_term(LET, 0, 0), pack_term(CALL, 0, 0)].repeat((words - 1) / 2);
    if words.is_multiple_of(2) {
        term.extend([pack_term(CALL, 1, 0), pack_term(VARIABLE, 0, 0)]);
    } else {
        term.push(pack_term(CALL, 0, 0));
    }
    plain(term)
}

/// `let c, let d v0, ... d v0` with this many lets: a normal form.
pub fn normal_chain(lets: usize) -> Sample {
    let mut term = vec![pack_term(LET, 0, 0), pack_term(CALL, 0, 0)];
    let use_last = [pack_term(CALL, 1, 0), pack_term(VARIABLE, 0, 0)];
    for _ in 1..lets {
        term.push(pack_term(LET, 0, 0));
        term.extend(use_last);
    }
    term.extend(use_last);
    plain(term)
}
