//! What the answers to records say, and how they differ between dialects.

use oracle::dialect::Dialect;
use std::collections::BTreeMap;
use tools::corpus::answers::answer_in;
use tools::corpus::records::Record;
use tools::generate::Sample;

/// The refusal in an answer's first line.
pub fn refusal(answer: &[u8]) -> u32 {
    let text = String::from_utf8(answer.to_vec()).expect("answers are text");
    let fields: Vec<&str> = text.split_whitespace().collect();
    match fields[0] {
        "ok" => 0,
        _ => fields[1].parse().expect("a refusal number"),
    }
}

/// How many records are answered otherwise in the later dialect, by both refusals. Each of them
/// `may_change`.
pub fn changes(
    records: &[Record],
    [earlier, later]: [Dialect; 2],
    may_change: impl Fn(&Sample) -> bool,
) -> BTreeMap<(u32, u32), u32> {
    let mut changes = BTreeMap::new();
    for record in records {
        let [before, after] = [earlier, later].map(|dialect| answer_in(dialect, record));
        if before != after {
            let sample = record.sample().expect("a bundle that can be read");
            assert!(may_change(&sample));
            let pair = (refusal(&before), refusal(&after));
            *changes.entry(pair).or_default() += 1;
        }
    }
    changes
}
