//! Control: wrong readings of the new drop, each of which some samples tell apart from the right one.

use oracle::checks::Checked;
use oracle::reduction::{sequence, step};
use oracle::rules::Rule;
use oracle::search::Redex;
use oracle::substitution::occurrences;
use oracle::tables::Tables;
use oracle::term::Term;
use tools::generate::each::each_acting_sample;

const MOST_WORDS: usize = 30_000;

/// Whether a let of this part is dropped if its variable is not used; `source` is the whole term that
/// was handed in. In phase 3 the part is a call, an application, first or second.
type Reading = fn(&Tables, &Term, &Term) -> bool;

fn acts(tables: &Tables, term: &Term) -> bool {
    matches!(term, Term::Call(number, _) if tables.signature_at(*number).acts)
}

fn names_acting_call(tables: &Tables, term: &Term) -> bool {
    term.nodes().into_iter().any(|node| acts(tables, node))
}

fn is_application(term: &Term) -> bool {
    matches!(term, Term::Application(..))
}

/// The reading of the request, written a second time.
fn right(tables: &Tables, _: &Term, bound: &Term) -> bool {
    let may_act = is_application(bound) && tables.has_acting_call();
    !acts(tables, bound) && !may_act
}

/// Each with its name and the samples that it must at least differ on.
const WRONG: [(&str, usize, Reading); 8] = [
    ("as before", 1500, |_, _, _| true),
    ("applications go", 300, |tables, _, bound| {
        !acts(tables, bound)
    }),
    ("the term's calls decide", 100, |tables, source, bound| {
        let stays = is_application(bound) && names_acting_call(tables, source);
        !acts(tables, bound) && !stays
    }),
    ("applications always stay", 100, |tables, _, bound| {
        !acts(tables, bound) && !is_application(bound)
    }),
    (
        "all calls stay beside an acting one",
        1000,
        |tables, _, bound| {
            let is_call = matches!(bound, Term::Call(..));
            !tables.has_acting_call() || !(is_call || is_application(bound))
        },
    ),
    (
        "halves stay beside an acting call",
        100,
        |tables, source, bound| {
            let is_half = matches!(bound, Term::First(_) | Term::Second(_));
            right(tables, source, bound) && !(is_half && tables.has_acting_call())
        },
    ),
    (
        "what holds an acting call stays",
        5,
        |tables, source, bound| right(tables, source, bound) && !names_acting_call(tables, bound),
    ),
    ("the last call decides", 50, |tables, _, bound| {
        let last_acts = tables.signatures.last().is_some_and(|call| call.acts);
        let may_act = is_application(bound) && last_acts;
        !acts(tables, bound) && !may_act
    }),
];

/// Phase 3 by a reading.
fn dropped(tables: &Tables, source: &Term, start: &Term, reading: Reading) -> Term {
    let mut term = start.clone();
    loop {
        let index = term.nodes().into_iter().position(|node| match node {
            Term::Let(bound, body) => occurrences(body, 0) == 0 && reading(tables, source, bound),
            _ => false,
        });
        let Some(index) = index else { return term };
        let rule = Rule::Drop;
        step(&mut term, Redex { rule, index });
    }
}

#[test]
fn wrong_readings_are_told_apart() {
    let (mut samples, mut differing) = (0, [0; WRONG.len()]);
    each_acting_sample(141, 6000, 50, |_, sample| {
        let Checked { tables, term, .. } =
            sample.examine().expect("generated samples are well typed");
        let Some(listed) = sequence(&tables, &term, MOST_WORDS) else {
            return;
        };
        let start = &listed.terms[listed.removal_start()];
        let normal_form = &listed.terms[listed.rules.len()];
        assert_eq!(&dropped(&tables, &term, start, right), normal_form);
        samples += 1;
        for (count, (_, _, reading)) in differing.iter_mut().zip(WRONG) {
            let other = dropped(&tables, &term, start, reading);
            *count += usize::from(&other != normal_form);
        }
    });
    println!("of {samples} samples:");
    for ((name, least, _), count) in WRONG.iter().zip(differing) {
        println!("{count} differ: {name}");
        assert!(count >= *least, "{name}: {count}");
    }
}
