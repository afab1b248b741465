//! Places in a term: what stands around a part of type B so that the whole has type B again.

use super::phrases::*;
use super::shapes::{self, B, B_AND_B, B_OR_B, B_TO_B, C, D};
use super::Sample;
use oracle::words::pack_call;

// The calls beside c and d: of two and of three arguments, and a choice, which is B or B.
pub const E: u64 = 2;
pub const F: u64 = 3;
const CHOICE: u64 = 4;

/// A sample with these calls and with this many inputs of type B.
pub fn sample_with_inputs(count: usize, term: Phrase) -> Sample {
    let mut sample = shapes::sample(&vec![B; count], term);
    sample.calls.extend([
        pack_call(2, B, [B, B, 0]),
        pack_call(3, B, [B, B, B]),
        pack_call(0, B_OR_B, [0; 3]),
    ]);
    sample
}

/// What stands directly around a part.
pub struct Place {
    pub name: &'static str,
    /// How many variables are bound around the part, all of type B.
    pub binders: u64,
    /// Whether the normal form still has what the part reads.
    pub is_kept: bool,
    pub around: fn(&Phrase) -> Phrase,
}

const fn kept(binders: u64, name: &'static str, around: fn(&Phrase) -> Phrase) -> Place {
    Place {
        name,
        binders,
        is_kept: true,
        around,
    }
}

const fn lost(binders: u64, name: &'static str, around: fn(&Phrase) -> Phrase) -> Place {
    Place {
        is_kept: false,
        ..kept(binders, name, around)
    }
}

pub const PLACES: &[Place] = &[
    kept(0, "an argument", |part| call(D, &[part])),
    kept(0, "the last of three arguments", |part| {
        call(F, &[&c(), &c(), part])
    }),
    kept(0, "what a let binds", |part| let_in(part, &d())),
    kept(1, "a let's body", |part| let_in(&c(), part)),
    lost(0, "what an unused let binds", |part| let_in(part, &c())),
    kept(1, "a function that is applied", |part| {
        apply(&function(B_TO_B, part), &c())
    }),
    lost(1, "a function that is never applied", |part| {
        let_in(&function(B_TO_B, part), &c())
    }),
    kept(0, "an operand", |part| apply(&function(B_TO_B, &d()), part)),
    lost(0, "an operand that is not used", |part| {
        apply(&function(B_TO_B, &c()), part)
    }),
    kept(0, "a left half", |part| first(&pair(B_AND_B, part, &c()))),
    kept(0, "a right half", |part| second(&pair(B_AND_B, &c(), part))),
    lost(0, "a left half that is not taken", |part| {
        second(&pair(B_AND_B, part, &c()))
    }),
    lost(0, "a right half that is not taken", |part| {
        first(&pair(B_AND_B, &c(), part))
    }),
    kept(0, "a subject", |part| {
        case(&left(B_OR_B, part), &d(), &variable(0))
    }),
    kept(1, "a left branch", |part| {
        case(&call(CHOICE, &[]), part, &variable(0))
    }),
    kept(1, "a right branch", |part| {
        case(&call(CHOICE, &[]), &variable(0), part)
    }),
    kept(1, "a left branch that is always taken", |part| {
        case(&left(B_OR_B, &c()), part, &variable(0))
    }),
    kept(1, "a right branch that is always taken", |part| {
        case(&right(B_OR_B, &c()), &variable(0), part)
    }),
    lost(1, "a left branch that is never taken", |part| {
        case(&right(B_OR_B, &c()), part, &variable(0))
    }),
    lost(1, "a right branch that is never taken", |part| {
        case(&left(B_OR_B, &c()), &variable(0), part)
    }),
];

fn c() -> Phrase {
    call(C, &[])
}

/// A call on the variable just bound.
fn d() -> Phrase {
    call(D, &[&variable(0)])
}

/// How many variables these places bind.
pub fn binders(places: &[&Place]) -> u64 {
    places.iter().map(|place| place.binders).sum()
}

/// The variable with this number at the end of these places, the outermost first.
pub fn variable_at(places: &[&Place], number: u64) -> Phrase {
    let inwards = places.iter().rev();
    inwards.fold(variable(number), |part, place| (place.around)(&part))
}
