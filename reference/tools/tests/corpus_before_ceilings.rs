//! The records from before the ceilings: their bytes and their answers.

mod digested;

use digested::digest;
use tools::corpus::contents::records;
use tools::corpus::corpus;
use tools::corpus::records::Record;

/// How many there are; the records with ceilings stand behind them.
const RECORDS: usize = 6_436;

#[test]
fn their_bytes_and_answers_stay() {
    let corpus = corpus(&records()[..RECORDS]);
    assert_eq!(corpus.input.len(), 3_987_592);
    assert_eq!(corpus.output.len(), 374_848);
    assert_eq!(digest(&corpus.input), 0x90d1_cc52_61cb_13a9);
    assert_eq!(digest(&corpus.output), 0x59b0_3553_2cbe_a7c5);
}

#[test]
fn they_have_no_ceilings() {
    for record in &records()[..RECORDS] {
        if let Record::Normalize(_, limits) = record {
            assert!(limits.settings.has_no_ceilings());
        }
    }
}
