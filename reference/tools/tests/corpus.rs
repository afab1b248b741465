//! The corpus: what it covers, that both implementations answer it alike, and that the committed
//! files are the generated ones.

use tools::corpus::answers::{answer, free_inputs_line, normalize_line};
use tools::corpus::contents::records;
use tools::corpus::corpus;
use tools::corpus::records::Record;
use tools::generate::Sample;

use oracle::words::{pack_type, UNIT_TYPE};
use std::collections::BTreeSet;
use std::fs::read;
use std::path::Path;

/// Both files together; the compiled test program holds neither, so this only keeps a clone small.
const MOST_BYTES: usize = 4_700_000;

#[test]
fn committed_files_are_the_generated_ones() {
    let corpus = corpus(&records());
    assert!(corpus.input.len() + corpus.output.len() < MOST_BYTES);
    let folder = Path::new(env!("CARGO_MANIFEST_DIR")).join("../../crates/corpus");
    for (name, expected) in [("stdin", corpus.input), ("stdout", corpus.output)] {
        let file = folder.join(name);
        if file.exists() {
            let found = read(&file).expect("the file can be read");
            assert!(
                found == expected,
                "{name} is not what `reference corpus` writes"
            );
        }
    }
}

#[test]
fn every_refusal_of_every_call_is_covered() {
    let records = records();
    assert!(records.len() > 3000, "{} records", records.len());
    let output = corpus(&records).output;
    let text = String::from_utf8(output).expect("answers are text");
    let mut seen = BTreeSet::new();
    for line in text.lines() {
        let fields: Vec<&str> = line.split(' ').collect();
        match fields[..] {
            ["ok", ..] => seen.insert(("respond", 0)),
            ["no", refusal, ..] => seen.insert(("respond", number(refusal))),
            ["check", refusal, _] => seen.insert(("check", number(refusal))),
            ["normal", "0", "1"] => seen.insert(("normal form", 0)),
            ["normal", refusal, _] => seen.insert(("normal", number(refusal))),
            ["normalize", refusal, ..] => seen.insert(("normalize", number(refusal))),
            ["inputs", refusal, ..] => seen.insert(("free_inputs", number(refusal))),
            _ => false,
        };
    }
    let mut expected = BTreeSet::from([("normal form", 0)]);
    expected.extend((0..10).flat_map(|refusal| [("check", refusal), ("normal", refusal)]));
    expected.extend((0..12).map(|refusal| ("normalize", refusal)));
    expected.insert(("normalize", 13));
    expected.extend((0..10).map(|refusal| ("free_inputs", refusal)));
    // The program's budget is too large to be spent in a short test.
    let of_program = (0..13).filter(|&refusal| refusal != 10);
    expected.extend(of_program.map(|refusal| ("respond", refusal)));
    assert_eq!(seen, expected);
}

fn number(text: &str) -> u32 {
    text.parse().expect("a refusal number")
}

/// The calls and refusals of the answers to the records whose sample is wanted.
fn seen(wanted: impl Fn(&Sample) -> bool) -> BTreeSet<(String, u32)> {
    let mut seen = BTreeSet::new();
    for record in records() {
        if record.sample().is_some_and(|sample| wanted(&sample)) {
            let line = String::from_utf8(answer(&record)).expect("answers are text");
            let fields: Vec<&str> = line.split_whitespace().collect();
            seen.insert(match fields[0] {
                "ok" => (String::from("respond"), 0),
                "no" => (String::from("respond"), number(fields[1])),
                call => (call.to_owned(), number(fields[1])),
            });
        }
    }
    seen
}

/// Asserts that each call has each of these refusals, and normalize 10 and 11 too.
fn assert_covered(seen: &BTreeSet<(String, u32)>, refusals: &[u32]) {
    for call in ["respond", "check", "normal", "normalize", "inputs"] {
        for &refusal in refusals {
            assert!(
                seen.contains(&(call.to_owned(), refusal)),
                "{call} {refusal}"
            );
        }
    }
    for refusal in [10, 11] {
        assert!(seen.contains(&(String::from("normalize"), refusal)));
    }
}

#[test]
fn every_refusal_of_units_is_covered() {
    let seen = seen(|sample| sample.types.contains(&pack_type(UNIT_TYPE, 0, 0)));
    assert_covered(&seen, &[0, 2, 3, 6, 7, 9]);
}

#[test]
fn every_refusal_beside_acting_calls_is_covered() {
    let seen = seen(Sample::has_acting_call);
    assert_covered(&seen, &[0, 1, 2, 3, 4, 5, 6, 7, 8, 9]);
}

#[test]
fn words_answer_alike() {
    for record in records() {
        let found = match &record {
            Record::Respond(bundle) => baseline::respond(bundle),
            Record::Normalize(sample, limits) => {
                normalize_line(baseline::normalize, sample, *limits).into_bytes()
            }
            Record::FreeInputs(sample) => {
                free_inputs_line(baseline::free_inputs, sample).into_bytes()
            }
            _ => continue,
        };
        assert_eq!(found, answer(&record));
    }
}
