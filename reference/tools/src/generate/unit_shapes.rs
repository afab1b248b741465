//! Shapes with many units, up to any length: trees of pairs, lets, helpers in helpers, branches.

use super::phrases::*;
use super::shapes::{shape, Shape};
use super::units::*;
use super::Sample;
use oracle::words::*;

/// Adds the types of trees of pairs of units; answers their numbers from height 0, which is U.
fn add_tree_types(sample: &mut Sample, height: usize) -> Vec<u64> {
    let mut numbers = vec![U, U_AND_U];
    for level in 1..height {
        let part = numbers[level];
        numbers.push(sample.types.len() as u64);
        sample.types.push(pack_type(PRODUCT, part, part));
    }
    numbers
}

/// A tree of pairs of these types over equal leaves: the last type is that of the whole.
fn tree(types: &[u64], leaf: &Phrase) -> Phrase {
    let levels = types.iter();
    levels.fold(leaf.clone(), |part, &whole| pair(whole, &part, &part))
}

/// `first` of a tree of pairs of this height, 1 or more, whose leaves are units: 2^(height + 1)
/// words.
pub fn unit_pairs(height: usize) -> Sample {
    let mut sample = sample(&[], Phrase::new());
    let types = add_tree_types(&mut sample, height);
    sample.term = first(&tree(&types[1..], &u()));
    sample
}

/// `let (a tree of units), left (… left (a tree of it))`, two trees of this height, 1 or more, and
/// so many injections: one step makes one tree of twice the height, of 2^(2 height + 1) - 1 words.
pub fn copied_units(height: usize, injections: usize) -> Sample {
    let mut sample = sample(&[], Phrase::new());
    let types = add_tree_types(&mut sample, 2 * height);
    let (lower, upper) = types[1..].split_at(height);
    let mut body = tree(upper, &variable(0));
    let mut whole = types[2 * height];
    for _ in 0..injections {
        sample.types.push(pack_type(SUM, whole, U));
        whole = sample.types.len() as u64 - 1;
        body = left(whole, &body);
    }
    sample.term = let_in(&tree(lower, &u()), &body);
    sample
}

/// `let (), let (), … take v0`: 2k + 2 words for k lets, each of which let value takes away.
pub fn unit_lets(lets: usize) -> Sample {
    let mut term = [pack_term(LET, 0, 0), pack_term(UNIT, 0, U)].repeat(lets);
    term.extend(call(TAKE, &[&variable(0)]));
    sample(&[U], term)
}

/// `(λ. (λ. … take v0) ()) ()`: helpers that take nothing, nested in their bodies. 3k + 2 words for
/// k levels.
pub fn unit_helpers(levels: usize) -> Sample {
    let level = [pack_term(APPLICATION, 0, 0), pack_term(FUNCTION, 0, U_TO_B)];
    let mut term = level.repeat(levels);
    term.extend(call(TAKE, &[&variable(0)]));
    term.extend(u().repeat(levels));
    sample(&[U], term)
}

/// `both (… both (c, ()) …, ())`: calls nested in their first arguments. 2k + 1 words for k levels.
pub fn unit_arguments(levels: usize) -> Sample {
    let mut term = call(BOTH, &[]).repeat(levels);
    term.extend(c());
    term.extend(u().repeat(levels));
    sample(&[], term)
}

/// `let take (), … v0`: a normal form. 4k words for k lets, each of which uses the one before.
pub fn unit_chain(lets: usize) -> Sample {
    let mut term = let_in(&call(TAKE, &[&u()]), &Phrase::new());
    for _ in 1..lets {
        term.extend(let_in(&call(BOTH, &[&variable(0), &u()]), &Phrase::new()));
    }
    term.extend(variable(0));
    sample(&[], term)
}

/// `let (case v, (), v0), … take v0` with this many lets over one choice: each moves into both
/// branches, so that the length doubles with each. So many lets that stay stand before it.
pub fn unit_branches(lets: usize, before: usize) -> Sample {
    let mut term = Phrase::new();
    for _ in 0..before {
        term.extend(let_in(&call(BOTH, &[&c(), &u()]), &Phrase::new()));
    }
    for depth in before..before + lets {
        term.push(pack_term(LET, 0, 0));
        term.extend(case(&variable(depth as u64), &u(), &variable(0)));
    }
    term.extend(call(TAKE, &[&variable(0)]));
    sample(&[U_OR_U], term)
}

/// The shapes at sizes that take little time in any implementation.
pub fn moderate_unit_shapes() -> Vec<Shape> {
    vec![
        shape("a pair of units taken apart", unit_pairs(1)),
        shape("a tree of units", unit_pairs(5)),
        shape("lets of units", unit_lets(30)),
        shape("helpers that take nothing", unit_helpers(20)),
        shape("calls on units", unit_arguments(20)),
        shape("a normal chain with units", unit_chain(20)),
        shape("a tree of copies", copied_units(2, 1)),
        shape("branches with units", unit_branches(5, 0)),
        shape("branches with units behind lets", unit_branches(3, 10)),
    ]
}

/// The shapes with exactly this many words, a power of two from 16 on, or as near below as they come.
pub fn unit_shapes_of(words: usize) -> Vec<Shape> {
    let height = words.ilog2() as usize - 1;
    vec![
        shape("a tree of units", unit_pairs(height)),
        shape("lets of units", unit_lets((words - 2) / 2)),
        shape("helpers that take nothing", unit_helpers((words - 2) / 3)),
        shape("calls on units", unit_arguments((words - 1) / 2)),
        shape("a normal chain with units", unit_chain(words / 4)),
    ]
}
