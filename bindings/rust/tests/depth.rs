//! Terms that nest as deep as they can, on a small stack: 2 MiB, or as many KiB as the variable
//! FLATTEN_STACK_KIB says. `respond` needs 256 KiB more than `normalize`: it has the buffers on the
//! stack too.

use flatten::{free_inputs, normalize, respond, Buffers, Settings, Tables};
use std::{env, thread};

const STACK_KIB: usize = 2048;

fn word(kind: u64, number: u64, ty: u64) -> u64 {
    kind << 60 | number << 30 | ty
}

fn bundle(tables: Tables, term: &[u64]) -> Vec<u8> {
    let parts = [tables.types, tables.calls, tables.inputs, term];
    let header = parts
        .iter()
        .fold(0, |header, part| header << 13 | part.len() as u64)
        << 12;
    let words = [&[header], &parts.concat()[..]].concat();
    words.iter().flat_map(|word| word.to_be_bytes()).collect()
}

fn on_small_stack<T: Send>(call: impl FnOnce() -> T + Send) -> T {
    let chosen = env::var("FLATTEN_STACK_KIB").ok();
    let kib = chosen.map_or(STACK_KIB, |kib| kib.parse().expect("a number of KiB"));
    thread::scope(|scope| {
        let builder = thread::Builder::new().stack_size(kib << 10);
        let thread = builder.spawn_scoped(scope, call);
        let answer = thread.expect("the system grants a thread").join();
        answer.expect("the call returns")
    })
}

/// The first line of the listing.
fn status(tables: Tables, term: &[u64]) -> String {
    let bundle = bundle(tables, term);
    let listing = String::from_utf8(on_small_stack(|| respond(&bundle)));
    let listing = listing.expect("a listing is ASCII");
    let line = listing.lines().next();
    line.expect("a status line").to_string()
}

/// `d (d (… c))`: the longest term that is taken, with a level for each word.
#[test]
fn nested_calls() {
    let mut term = vec![word(1, 1, 0); 4095];
    term.push(word(1, 0, 0));
    let tables = Tables {
        types: &[0],
        calls: &[0, word(1, 0, 0)],
        inputs: &[],
    };
    assert_eq!(status(tables, &term), "no 11 2048 0 0 0 0 0 0 0 0 0");
}

/// `let w = λy. λ. … λ. g y in w (w (… z))`, with 1,016 functions in w and w applied 8 times: in
/// the normal form all 8,128 functions stand one inside the other, with an application after each
/// 1,016.
#[test]
fn nested_functions() {
    let levels = 1016;
    let mut types = vec![0];
    types.extend((0..levels).map(|result| word(1, 0, result)));
    let (of_g, of_w) = (levels + 1, levels + 2);
    types.extend([word(1, levels, 0), word(1, levels, levels)]);
    let mut term = vec![word(4, 0, 0), word(2, 0, of_w)];
    term.extend((1..=levels).rev().map(|ty| word(2, 0, ty)));
    term.extend([word(3, 0, 0), word(0, levels + 1, 0), word(0, levels, 0)]);
    term.extend([word(3, 0, 0), word(0, 0, 0)].repeat(8));
    term.push(word(0, 2, 0));
    let tables = Tables {
        types: &types,
        calls: &[],
        inputs: &[of_g, levels],
    };
    assert_eq!(status(tables, &term), "ok 1016 8145 7 6 0 8 0 0 0 0 8 0");
}

/// `let q = e() in let w = λy. λ. d(λ. d(… d(y, q) …, q), q) in w (w z)`, with 1,362 calls in w: the
/// search for unused lets calls itself at each function that is an argument with another behind it.
/// That takes three words a level, so no normal form has many more levels than this one, 2,724.
#[test]
fn nested_arguments() {
    let levels = 1361;
    let (d, q) = (word(1, 1, 0), |binders| word(0, binders, 0));
    let mut term = vec![word(4, 0, 0), word(1, 0, 0), word(4, 0, 0)];
    term.extend([word(2, 0, 2), word(2, 0, 1)]);
    term.extend([d, word(2, 0, 1)].repeat(levels as usize));
    term.extend([d, word(0, levels + 1, 0), q(levels + 2)]);
    term.extend((0..levels).rev().map(|binders| q(binders + 2)));
    term.extend([word(3, 0, 0), word(0, 0, 0)].repeat(2));
    term.push(word(0, 2, 0));
    let tables = Tables {
        types: &[0, word(1, 0, 0), word(1, 1, 1)],
        calls: &[0, 2 << 60 | 1 << 30],
        inputs: &[1],
    };
    let [mut output, mut first, mut second] = [(); 3].map(|()| vec![0; 8192]);
    let buffers = Buffers {
        output: &mut output,
        first: &mut first,
        second: &mut second,
    };
    let normal = on_small_stack(|| normalize(tables, &term, Settings::no_ceilings(1000), buffers));
    assert_eq!(normal.expect("a normal form").words.len(), 8175);
    assert_eq!(status(tables, &term), "ok 1 8175 1 0 0 2 0 0 0 0 2 0");
}

/// `d (d (… i))` and `(λ. (λ. … d i) i) i`, where i is the input: 8,192 words are the most that
/// `free_inputs` takes.
#[test]
fn nested_reads() {
    let levels = 2730;
    let mut calls = vec![word(1, 1, 0); 8191];
    calls.push(word(0, 0, 0));
    let mut functions = [word(3, 0, 0), word(2, 0, 1)].repeat(levels);
    functions.extend([word(1, 1, 0), word(0, levels as u64, 0)]);
    functions.extend((0..levels as u64).rev().map(|binders| word(0, binders, 0)));
    let tables = Tables {
        types: &[0, word(1, 0, 0)],
        calls: &[0, word(1, 0, 0)],
        inputs: &[0],
    };
    for term in [calls, functions] {
        assert_eq!(term.len(), 8192);
        let free = on_small_stack(|| free_inputs(tables, &term));
        assert_eq!(free.expect("a well-typed term").marks, [1 << 63, 0, 0, 0]);
    }
}
