//! The call `respond`: the bytes of a bundle in, the bytes of its listing out.
//! The second implementation includes this file too, where the library is linked.

extern "C" {
    fn flatten_respond(
        bytes: *const u8,
        bytes_length: usize,
        text: *mut u8,
        text_length: usize,
    ) -> usize;
}

/// The most bytes that a listing takes.
pub const MOST_WRITTEN: usize = 139393;

/// What the program `flatten` writes for these bytes of standard input.
pub fn respond(bytes: &[u8]) -> Vec<u8> {
    let mut text = vec![0; MOST_WRITTEN];
    // SAFETY: each pointer comes with the length of its slice. `text` is borrowed for writing and
    // so overlaps nothing; neither slice is kept after the call.
    let length =
        unsafe { flatten_respond(bytes.as_ptr(), bytes.len(), text.as_mut_ptr(), text.len()) };
    text.truncate(length);
    text
}
