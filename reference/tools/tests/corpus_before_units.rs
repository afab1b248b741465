//! The records from before the unit type: their bytes, and their answers before it and with it.

mod answered;
mod digested;

use answered::changes;
use digested::digest;
use oracle::dialect::Dialect;
use oracle::words::{pack_type, UNIT_TYPE};
use std::collections::BTreeMap;
use tools::corpus::contents::records;
use tools::corpus::corpus_in;

/// How many there are; the records with units stand behind them.
const RECORDS: usize = 5_987;

#[test]
fn their_bytes_stay() {
    let corpus = corpus_in(Dialect::Units, &records()[..RECORDS]);
    assert_eq!(corpus.input.len(), 3_528_760);
    assert_eq!(digest(&corpus.input), 0x3386_4e93_b005_6abc);
    assert_eq!(digest(&corpus.output), 0xb910_0d45_70c0_c8ab);
}

#[test]
fn their_answers_stay_but_for_fifteen_refusals() {
    let dialects = [Dialect::Base, Dialect::Units];
    let changes = changes(&records()[..RECORDS], dialects, |sample| {
        sample.types.contains(&pack_type(UNIT_TYPE, 0, 0)) || sample.has_unit()
    });
    let expected = BTreeMap::from([((2, 3), 1), ((6, 7), 4), ((6, 9), 10)]);
    assert_eq!(changes, expected);
}
