//! Records: ten header words, then the four tables' words or a bundle's bytes.
//!
//! The header is call, budget, lengths of output, first and second scratch buffer, lengths of the
//! type, call, input and term tables, and length of the bundle in bytes. Behind the header of call 5
//! stand ten words more, the ceilings. All words are written most significant byte first; a bundle is
//! padded with zero bytes to whole words.

use crate::generate::limits::Limits;
use crate::generate::Sample;
use oracle::settings::Settings;

/// One call with what it is lent.
#[derive(Clone, Debug)]
pub enum Record {
    /// Call 0.
    Respond(Vec<u8>),
    /// Call 1.
    Check(Sample),
    /// Call 2.
    IsNormal(Sample),
    /// Call 3 where no rule has a ceiling, and call 5 otherwise.
    Normalize(Sample, Limits),
    /// Call 4.
    FreeInputs(Sample),
}

const NO_LIMITS: Limits = Limits {
    settings: Settings::no_ceilings(0),
    lengths: [0; 3],
};

impl Record {
    /// The tables and the term, unless it is a bundle that cannot be read.
    pub fn sample(&self) -> Option<Sample> {
        match self {
            Record::Respond(bundle) => Sample::from_bundle(bundle).ok(),
            Record::Check(sample)
            | Record::IsNormal(sample)
            | Record::Normalize(sample, _)
            | Record::FreeInputs(sample) => Some(sample.clone()),
        }
    }

    /// Writes the record to the end of `bytes`.
    pub fn write(&self, bytes: &mut Vec<u8>) {
        match self {
            Record::Respond(bundle) => {
                write_words(bytes, &[0, 0, 0, 0, 0, 0, 0, 0, 0, bundle.len() as u64]);
                bytes.extend(bundle);
                bytes.resize(bytes.len().next_multiple_of(8), 0);
            }
            Record::Check(sample) => write_tables(bytes, 1, NO_LIMITS, sample),
            Record::IsNormal(sample) => write_tables(bytes, 2, NO_LIMITS, sample),
            Record::Normalize(sample, limits) if limits.settings.has_no_ceilings() => {
                write_tables(bytes, 3, *limits, sample)
            }
            Record::Normalize(sample, limits) => write_tables(bytes, 5, *limits, sample),
            Record::FreeInputs(sample) => write_tables(bytes, 4, NO_LIMITS, sample),
        }
    }
}

fn write_tables(bytes: &mut Vec<u8>, call: u64, limits: Limits, sample: &Sample) {
    let tables = [&sample.types, &sample.calls, &sample.inputs, &sample.term];
    write_words(bytes, &[call, limits.settings.budget.into()]);
    write_words(bytes, &limits.lengths.map(|length| length as u64));
    write_words(bytes, &tables.map(|table| table.len() as u64));
    write_words(bytes, &[0]);
    if call == 5 {
        write_words(bytes, &limits.settings.ceilings.map(u64::from));
    }
    for table in tables {
        write_words(bytes, table);
    }
}

fn write_words(bytes: &mut Vec<u8>, words: &[u64]) {
    bytes.extend(words.iter().flat_map(|word| word.to_be_bytes()));
}
