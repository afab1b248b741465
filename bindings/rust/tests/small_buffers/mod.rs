//! The call `normalize` with three small buffers.

use flatten::{normalize, Buffers, Counts, Settings, Tables};

/// The words of the normal form and the counts, or the number of the refusal.
pub fn normal_form(tables: Tables, term: &[u64]) -> Result<(Vec<u64>, Counts), u32> {
    let [mut output, mut first, mut second] = [[0; 16]; 3];
    let buffers = Buffers {
        output: &mut output,
        first: &mut first,
        second: &mut second,
    };
    match normalize(tables, term, Settings::no_ceilings(100), buffers) {
        Ok(normal) => Ok((normal.words.to_vec(), normal.counts)),
        Err(refused) => Err(refused.number),
    }
}
