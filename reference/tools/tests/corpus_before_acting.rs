//! The records from before the calls that act: their bytes, and their answers before them and with
//! them.

mod answered;
mod digested;

use answered::changes;
use digested::digest;
use oracle::dialect::Dialect;
use std::collections::BTreeMap;
use tools::corpus::contents::records;
use tools::corpus::corpus_in;
use tools::corpus::records::Record;
use tools::generate::Sample;

/// How many there are; the records with acting calls stand behind them.
const RECORDS: usize = 6_179;

#[test]
fn their_bytes_stay() {
    let corpus = corpus_in(Dialect::Units, &records()[..RECORDS]);
    assert_eq!(corpus.input.len(), 3_805_528);
    assert_eq!(digest(&corpus.input), 0x6c33_7c23_455c_4fbc);
    assert_eq!(digest(&corpus.output), 0xed62_7a26_e33d_58e4);
}

#[test]
fn their_answers_stay_but_for_eleven_refusals() {
    let records = &records()[..RECORDS];
    let dialects = [Dialect::Units, Dialect::Acting];
    let changes = changes(records, dialects, Sample::has_acting_call);
    let expected = BTreeMap::from([((4, 5), 1), ((4, 7), 8), ((4, 9), 2)]);
    assert_eq!(changes, expected);
    // These are all that have the count of an acting call; what they have besides is refused now.
    let samples = records.iter().filter_map(Record::sample);
    assert_eq!(samples.filter(Sample::has_acting_call).count(), 11);
}
