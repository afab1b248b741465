//! The call `normalize`: a term in, its normal form or a refusal out.

use crate::refused::Refused;
use crate::settings::Settings;

/// What the library answers; laid out as `Answer` in crates/outcomes.
#[repr(C)]
struct Answer {
    refusal: u32,
    ty: u64,
    length: usize,
    counts: Counts,
}

extern "C" {
    fn flatten_normalize(
        types: *const u64,
        types_length: usize,
        calls: *const u64,
        calls_length: usize,
        inputs: *const u64,
        inputs_length: usize,
        term: *const u64,
        term_length: usize,
        settings: Settings,
        output: *mut u64,
        output_length: usize,
        first: *mut u64,
        first_length: usize,
        second: *mut u64,
        second_length: usize,
    ) -> Answer;
}

/// How often each rule was applied: 0 let, 1 let of let, 2 let of case, 3 apply, 4 first,
/// 5 second, 6 left case, 7 right case, 8 let value, 9 drop.
pub type Counts = [u32; 10];

/// The tables that a term is over.
#[derive(Clone, Copy, Debug)]
pub struct Tables<'a> {
    pub types: &'a [u64],
    pub calls: &'a [u64],
    pub inputs: &'a [u64],
}

/// The buffers that are lent. The capacity is the length of the shortest, and 8,192 at most.
#[derive(Debug)]
pub struct Buffers<'a> {
    /// The normal form goes to the front; the rest, and on a refusal all of it, stays as it was.
    pub output: &'a mut [u64],
    /// Scratch: all zero after the call, whatever it held.
    pub first: &'a mut [u64],
    /// Scratch: all zero after the call, whatever it held.
    pub second: &'a mut [u64],
}

/// A normal form.
#[derive(Clone, Copy, Debug, PartialEq, Eq)]
pub struct Normal<'a> {
    /// The number of the term's type.
    pub ty: u64,
    /// Its words, at the front of the output.
    pub words: &'a [u64],
    pub counts: Counts,
}

/// Normalizes a term within the settings.
pub fn normalize<'a>(
    tables: Tables,
    term: &[u64],
    settings: Settings,
    buffers: Buffers<'a>,
) -> Result<Normal<'a>, Refused> {
    // SAFETY: each pointer comes with the length of its slice. The buffers are borrowed for writing
    // and so overlap nothing; no slice is kept after the call. `Answer` and `Settings` have the
    // fields and the layout of the library's.
    let answer = unsafe {
        flatten_normalize(
            tables.types.as_ptr(),
            tables.types.len(),
            tables.calls.as_ptr(),
            tables.calls.len(),
            tables.inputs.as_ptr(),
            tables.inputs.len(),
            term.as_ptr(),
            term.len(),
            settings,
            buffers.output.as_mut_ptr(),
            buffers.output.len(),
            buffers.first.as_mut_ptr(),
            buffers.first.len(),
            buffers.second.as_mut_ptr(),
            buffers.second.len(),
        )
    };
    match answer.refusal {
        0 => Ok(Normal {
            ty: answer.ty,
            words: &buffers.output[..answer.length],
            counts: answer.counts,
        }),
        number => Err(Refused {
            number,
            counts: answer.counts,
        }),
    }
}
