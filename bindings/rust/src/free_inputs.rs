//! The library's call `free_inputs`: a term and its tables in, the inputs that occur free in it out.
//! The second implementation includes this file too, where the library is linked.

/// What the library answers; laid out as `FreeInputs` in crates/outcomes.
#[repr(C)]
pub struct FreeInputs {
    pub refusal: u32,
    pub marks: [u64; 4],
    pub count: u32,
}

extern "C" {
    fn flatten_free_inputs(
        types: *const u64,
        types_length: usize,
        calls: *const u64,
        calls_length: usize,
        inputs: *const u64,
        inputs_length: usize,
        term: *const u64,
        term_length: usize,
    ) -> FreeInputs;
}

/// The library's answer for these tables and this term.
pub fn free_inputs(types: &[u64], calls: &[u64], inputs: &[u64], term: &[u64]) -> FreeInputs {
    // SAFETY: each pointer comes with the length of its slice. The slices are only read, and none
    // is kept after the call. `FreeInputs` has the fields and the layout of the library's.
    unsafe {
        flatten_free_inputs(
            types.as_ptr(),
            types.len(),
            calls.as_ptr(),
            calls.len(),
            inputs.as_ptr(),
            inputs.len(),
            term.as_ptr(),
            term.len(),
        )
    }
}
