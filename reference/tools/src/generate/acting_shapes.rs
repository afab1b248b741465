//! Shapes with many acting calls, up to any length: lets that stay, among others that go, nested
//! calls, helpers, branches.

use super::acting::*;
use super::phrases::*;
use super::shapes::{self, shape, Shape, B, B_OR_B, B_TO_B};
use super::Sample;
use oracle::words::*;

/// `let begin, let begin, … d v0`: a normal form in which no let but the last is used. 2k + 2 words
/// for k lets.
pub fn acting_lets(lets: usize) -> Sample {
    let mut term = let_in(&begin(), &Phrase::new()).repeat(lets);
    term.extend(d(0));
    sample(&[B], term)
}

/// `let begin, let c, let begin, … v`, where v is the input: every second let goes. 4k + 1 words for
/// k of each.
pub fn mixed_lets(pairs: usize) -> Sample {
    let both = [begin(), c()].map(|bound| let_in(&bound, &Phrase::new()));
    let mut term = both.concat().repeat(pairs);
    term.extend(variable(2 * pairs as u64));
    sample(&[B], term)
}

/// `let f x, let f x, … x` over inputs f and x: 4k + 1 words for k lets.
fn application_lets(lets: usize) -> Phrase {
    let mut term = Phrase::new();
    for depth in 0..lets as u64 {
        term.extend(let_in(
            &apply(&variable(depth), &variable(depth + 1)),
            &Phrase::new(),
        ));
    }
    term.extend(variable(lets as u64 + 1));
    term
}

/// These lets beside an acting call that no node names: a normal form.
pub fn kept_applications(lets: usize) -> Sample {
    let mut sample = dropped_applications(lets);
    sample.calls.push(pack_call(ACTING, B, [0; 3]));
    sample
}

/// The same lets without an acting call: all of them go.
pub fn dropped_applications(lets: usize) -> Sample {
    shapes::sample(&[B_TO_B, B], application_lets(lets))
}

/// `let begin, let d v0, … c`: a cascade of drops which leaves the first let.
pub fn cascade_to_an_acting_call(lets: usize) -> Sample {
    let mut term = let_in(&begin(), &Phrase::new());
    for _ in 1..lets {
        term.extend(let_in(&d(0), &Phrase::new()));
    }
    term.extend(c());
    sample(&[], term)
}

/// `stamp (… stamp begin)` of this many words.
pub fn nested_stamps(words: usize) -> Sample {
    let mut term = call(STAMP, &[]).repeat(words - 1);
    term.extend(begin());
    sample(&[], term)
}

/// `(λx. let stamp x, (λx. … d x) x) v`: each helper acts and hands its argument on. 6k + 2 words for
/// k levels, 1 or more.
pub fn acting_helpers(levels: usize) -> Sample {
    let acts = let_in(&stamp(0), &Phrase::new());
    let mut term = apply(&function(B_TO_B, &acts), &Phrase::new()).repeat(levels);
    // Under the let, the argument is variable 1; the outermost helper's is the input.
    term.extend(d(1));
    term.extend(variable(1).repeat(levels - 1));
    term.extend(variable(0));
    sample(&[B], term)
}

/// `let (case v, d v0, stamp v0), … c` with this many lets over one choice: in a branch stay as many
/// lets as it takes right turns.
pub fn acting_branches(lets: usize) -> Sample {
    let mut term = Phrase::new();
    for depth in 0..lets as u64 {
        term.extend(let_in(
            &case(&variable(depth), &d(0), &stamp(0)),
            &Phrase::new(),
        ));
    }
    term.extend(c());
    sample(&[B_OR_B], term)
}

/// The shapes at sizes that take little time in any implementation.
pub fn moderate_acting_shapes() -> Vec<Shape> {
    vec![
        shape("lets that stay", acting_lets(30)),
        shape("every second let goes", mixed_lets(20)),
        shape("applications that stay", kept_applications(20)),
        shape("applications that go", dropped_applications(20)),
        shape("a cascade", cascade_to_an_acting_call(40)),
        shape("nested calls", nested_stamps(40)),
        shape("helpers that act", acting_helpers(15)),
        shape("branches that act", acting_branches(5)),
    ]
}

/// The shapes with exactly this many words, 16 or more, or as near below as they come.
pub fn acting_shapes_of(words: usize) -> Vec<Shape> {
    vec![
        shape("lets that stay", acting_lets((words - 2) / 2)),
        shape("every second let goes", mixed_lets((words - 1) / 4)),
        shape("applications that stay", kept_applications((words - 1) / 4)),
        shape(
            "applications that go",
            dropped_applications((words - 1) / 4),
        ),
        shape("a cascade", cascade_to_an_acting_call(words / 3)),
        shape("helpers that act", acting_helpers((words - 2) / 6)),
    ]
}

/// Shapes at full size, for measuring.
pub fn largest_acting_shapes() -> Vec<Shape> {
    vec![
        shape("2,047 lets of acting calls, which stay", acting_lets(2047)),
        shape("2,046 lets, every second dropped", mixed_lets(1023)),
    ]
}
