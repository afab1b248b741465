//! The verified library's calls, if it was linked: see build.rs.

use oracle::free_inputs::FindFreeInputs;

/// The program's output for these bytes of standard input.
pub type Respond = fn(&[u8]) -> Vec<u8>;

/// The verified library's program; `None` if it was not linked.
#[cfg(not(verified))]
pub const RESPOND: Option<Respond> = None;

#[cfg(verified)]
pub const RESPOND: Option<Respond> = Some(linked_respond::respond);

/// The verified library's free_inputs; `None` if it was not linked.
#[cfg(not(verified))]
pub const FREE_INPUTS: Option<FindFreeInputs> = None;

#[cfg(verified)]
pub const FREE_INPUTS: Option<FindFreeInputs> = Some(|types, calls, inputs, term| {
    let answer = linked_free_inputs::free_inputs(types, calls, inputs, term);
    oracle::free_inputs::FreeInputs {
        refusal: answer.refusal,
        marks: answer.marks,
        count: answer.count,
    }
});

// The declarations of the linked calls, the same files as in the library for Rust.
#[cfg(verified)]
#[path = "../../../bindings/rust/src/free_inputs.rs"]
mod linked_free_inputs;
#[cfg(verified)]
#[path = "../../../bindings/rust/src/respond.rs"]
mod linked_respond;
