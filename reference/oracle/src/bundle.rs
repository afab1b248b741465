//! The bundle reader: bytes to words, most significant byte first.

use crate::checks::Refusal;
use crate::words::{pack_header, unpack_header};

const MOST_BYTES: usize = 65_536;
const WORD_BYTES: usize = 8;

/// The answer of `read_bundle`: the four table lengths; refusal 0 is acceptance.
#[derive(Clone, Copy, Debug, Default, PartialEq, Eq)]
pub struct Lengths {
    pub refusal: u32,
    pub types: usize,
    pub calls: usize,
    pub inputs: usize,
    pub term: usize,
}

/// Copies what follows the header into the front of `words`, which is left unchanged on refusal.
pub fn read_bundle(bytes: &[u8], words: &mut [u64]) -> Lengths {
    let refused = Lengths {
        refusal: Refusal::Bundle.number(),
        ..Lengths::default()
    };
    let Some((header, tables)) = bytes.split_first_chunk::<WORD_BYTES>() else {
        return refused;
    };
    let (lengths, low_bits) = unpack_header(u64::from_be_bytes(*header));
    let [types, calls, inputs, term] = lengths.map(|length| length as usize);
    let total = types + calls + inputs + term;
    let fits = bytes.len() <= MOST_BYTES
        && low_bits == 0
        && tables.len() == total * WORD_BYTES
        && words.len() >= total;
    if !fits {
        return refused;
    }
    for (word, chunk) in words.iter_mut().zip(tables.chunks_exact(WORD_BYTES)) {
        *word = chunk
            .iter()
            .fold(0, |word, &byte| word << 8 | u64::from(byte));
    }
    Lengths {
        refusal: 0,
        types,
        calls,
        inputs,
        term,
    }
}

/// The bundle of four tables; each is shorter than 8,192 words.
pub fn write_bundle(types: &[u64], calls: &[u64], inputs: &[u64], term: &[u64]) -> Vec<u8> {
    let lengths = [types, calls, inputs, term].map(|table| table.len() as u64);
    [&[pack_header(lengths)], types, calls, inputs, term]
        .concat()
        .iter()
        .flat_map(|word| word.to_be_bytes())
        .collect()
}
