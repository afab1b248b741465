//! The corpus of a test program: records on standard input, and what it writes for each.

pub mod answers;
pub mod contents;
pub mod records;

use oracle::dialect::Dialect;
use records::Record;

/// The two files: all records, and all answers.
pub struct Corpus {
    pub input: Vec<u8>,
    pub output: Vec<u8>,
}

/// Writes both files for these records.
pub fn corpus(records: &[Record]) -> Corpus {
    corpus_in(Dialect::CURRENT, records)
}

/// The same with the answers of any dialect.
pub fn corpus_in(dialect: Dialect, records: &[Record]) -> Corpus {
    let mut corpus = Corpus {
        input: Vec::new(),
        output: Vec::new(),
    };
    for record in records {
        record.write(&mut corpus.input);
        corpus.output.extend(answers::answer_in(dialect, record));
    }
    corpus
}
