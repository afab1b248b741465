//! The shipped examples: the committed files are the generated ones, and the listings are what both
//! implementations respond and what the README quotes.

use oracle::checks::Checked;
use oracle::coding::encode;
use oracle::listing::respond;
use tools::examples::files;
use tools::generate::examples::{examples, Example};
use tools::generate::limits::Limits;
use tools::generate::Sample;

use oracle::reduction::{walk, Counts};
use oracle::words::*;
use std::fs;
use std::path::{Path, PathBuf};

fn repository() -> PathBuf {
    Path::new(env!("CARGO_MANIFEST_DIR")).join("../..")
}

fn committed(path: &str) -> Vec<u8> {
    fs::read(repository().join(path)).unwrap_or_else(|error| panic!("{path}: {error}"))
}

fn example(name: &str) -> Example {
    let found = examples().into_iter().find(|example| example.name == name);
    found.expect("an example of this name")
}

/// The words of the normal form, and the counts.
fn normal_form(example: &Example) -> (Vec<u64>, Counts) {
    let Checked { tables, term, .. } = example.sample.examine().expect("a well-typed term");
    let Limits { settings, lengths } = Limits::OF_PROGRAM;
    let walked = walk(&tables, term, settings, lengths[0]);
    let (normal_form, counts) = walked.expect("a normal form");
    (encode(&normal_form), counts)
}

/// How many words have this kind.
fn nodes(words: &[u64], kind: u64) -> usize {
    let of_kind = |&&word: &&u64| unpack_term(word).0 == kind;
    words.iter().filter(of_kind).count()
}

/// How many words call this.
fn calls(words: &[u64], name: &str, example: &Example) -> usize {
    let named = example.legend.calls.iter().position(|&call| call == name);
    let number = named.expect("a call of this name") as u64;
    let word = pack_term(CALL, number, 0);
    words.iter().filter(|&&found| found == word).count()
}

#[test]
fn committed_files_are_the_generated_ones() {
    let files = files();
    assert_eq!(files.len(), 6 * examples().len());
    for file in files {
        let path = &file.path;
        assert!(
            committed(path) == file.contents,
            "{path} is not what `reference examples` writes"
        );
    }
}

#[test]
fn both_implementations_respond_with_the_listings() {
    for Example { name, .. } in examples() {
        let bundle = committed(&format!("examples/{name}.bundle"));
        let listing = committed(&format!("examples/{name}.listing"));
        assert!(listing.starts_with(b"ok "));
        assert_eq!(respond(&bundle), listing);
        assert_eq!(baseline::respond(&bundle), listing);
    }
}

#[test]
fn the_sample_is_what_the_program_is_run_on() {
    assert_eq!(
        committed("examples/sample.bundle"),
        committed("crates/flatten/stdin")
    );
    assert_eq!(
        committed("examples/sample.listing"),
        committed("crates/flatten/stdout")
    );
}

#[test]
fn the_register_uses_one_answer_twice() {
    let register = example("register");
    let source = &register.sample.term;
    assert_eq!(nodes(source, APPLICATION), 2);
    let (words, counts) = normal_form(&register);
    assert_eq!(counts, [5, 3, 0, 2, 0, 0, 0, 0, 1, 0]);
    assert_eq!(nodes(&words, FUNCTION) + nodes(&words, APPLICATION), 0);
    assert_eq!(calls(&words, "recognise", &register), 1);
    assert_eq!(calls(&words, "transcribe", &register), 2);
    assert_eq!(nodes(&words, FIRST) + nodes(&words, SECOND), 2);
}

#[test]
fn the_tithe_map_keeps_one_case() {
    let tithe = example("tithe");
    assert_eq!(nodes(&tithe.sample.term, CASE), 2);
    let (words, counts) = normal_form(&tithe);
    assert_eq!(counts, [3, 2, 1, 1, 0, 0, 1, 1, 3, 0]);
    assert_eq!(nodes(&words, CASE), 1);
    assert_eq!(nodes(&words, LEFT) + nodes(&words, RIGHT), 0);
    for call in ["inspect", "recognise", "clear", "store"] {
        assert_eq!(calls(&words, call, &tithe), 1, "{call}");
    }
}

#[test]
fn the_plate_has_no_helper_and_one_case() {
    let plate = example("plate");
    let source = &plate.sample.term;
    let kinds = [FUNCTION, APPLICATION, UNIT, CASE];
    assert_eq!(kinds.map(|kind| nodes(source, kind)), [1; 4]);
    let (words, counts) = normal_form(&plate);
    assert_eq!(counts, [2, 2, 1, 1, 0, 0, 0, 0, 1, 0]);
    assert_eq!(kinds.map(|kind| nodes(&words, kind)), [0, 0, 0, 1]);
    // The case is the body of the let that binds its subject.
    assert_eq!(words[..3], source_of_choice());
    assert_eq!(unpack_term(words[3]).0, CASE);
    for (call, times) in [
        ("caption", 1),
        ("recognise", 1),
        ("title", 1),
        ("number", 1),
        ("file", 2),
    ] {
        assert_eq!(calls(&words, call, &plate), times, "{call}");
    }
}

#[test]
fn the_stamp_stays_and_the_measure_goes() {
    let stamp = example("stamp");
    let (words, counts) = normal_form(&stamp);
    assert_eq!(counts, [1, 1, 0, 1, 0, 0, 0, 0, 1, 1]);
    for (call, before, after) in [
        ("stamp", 1, 1),
        ("deskew", 1, 1),
        ("measure", 1, 0),
        ("transcribe", 1, 1),
    ] {
        assert_eq!(calls(&stamp.sample.term, call, &stamp), before, "{call}");
        assert_eq!(calls(&words, call, &stamp), after, "{call}");
    }
    // The answer of the stamp is not used: the deskewed page is variable 0 in the end.
    let (page, second) = (pack_term(VARIABLE, 0, 0), pack_term(VARIABLE, 1, 0));
    let [stamped, deskewed, transcribed] = [0, 1, 3].map(|number| pack_term(CALL, number, 0));
    let let_node = pack_term(LET, 0, 0);
    let expected = [
        let_node,
        stamped,
        page,
        let_node,
        deskewed,
        second,
        transcribed,
        page,
    ];
    assert_eq!(words, expected);
    // If it did not act, it would go as well.
    let plain = Example {
        sample: stamp.sample.without_acting_calls(),
        ..stamp
    };
    assert_eq!(calls(&normal_form(&plain).0, "stamp", &plain), 0);
}

#[test]
fn only_clearing_and_storing_and_stamping_act() {
    let mut acting = Vec::new();
    for Example { sample, legend, .. } in examples() {
        let words = sample.calls.iter().zip(legend.calls);
        acting.extend(words.filter_map(|(&word, &name)| {
            let (count, ..) = unpack_call(word);
            (count >= ACTING).then_some((name, count))
        }));
    }
    assert_eq!(acting, [("clear", 9), ("store", 10), ("stamp", 9)]);
}

/// `let caption(plate)`.
fn source_of_choice() -> [u64; 3] {
    [
        pack_term(LET, 0, 0),
        pack_term(CALL, 0, 0),
        pack_term(VARIABLE, 0, 0),
    ]
}

#[test]
fn only_the_listed_terms_are_normal() {
    for example in examples() {
        let source = &example.sample;
        let (term, _) = normal_form(&example);
        let normal_form = Sample {
            term,
            ..source.clone()
        };
        assert!(!source.is_normal().normal);
        assert!(normal_form.is_normal().normal);
    }
}

/// The text, set in by so many spaces.
fn set_in(spaces: usize, lines: &str) -> String {
    let margin = " ".repeat(spaces);
    let line = |line: &str| match line {
        "" => String::from("\n"),
        _ => format!("{margin}{line}\n"),
    };
    lines.lines().map(line).collect()
}

/// The lines of the term that stands under this heading.
fn term_under<'a>(heading: &str, text: &'a str) -> &'a str {
    let start = text.find(heading).expect("the heading");
    let start = start + text[start..].find('\n').expect("a line") + 1;
    let after = text[start..].find("\nsteps").map(|length| length + 1);
    &text[start..after.map_or(text.len(), |length| start + length)]
}

#[test]
fn the_readme_quotes_the_files() {
    let text = |path: &str| String::from_utf8(committed(path)).expect("a text");
    let readme = text("README.md");
    let quotes = |lines: String| {
        assert!(!lines.is_empty());
        assert!(readme.contains(&lines), "not in README.md:\n{lines}");
    };
    for path in ["register.listing", "register.words"] {
        quotes(set_in(4, &text(&format!("examples/{path}"))));
    }
    for name in ["plate", "stamp"] {
        let listing = text(&format!("examples/{name}.listing"));
        let first_line = listing.lines().next().expect("a line");
        assert!(readme.contains(&format!("`{first_line}`")), "{name}");
    }
    let words = text("examples/stamp.words");
    let (stamp, _) = words
        .lines()
        .find_map(|line| line.split_once(" ").filter(|_| line.ends_with("acting")))
        .expect("a call that acts");
    assert!(readme.contains(&format!("`{stamp}`")));
    for name in ["register", "tithe", "plate", "stamp"] {
        let shown = text(&format!("examples/{name}.txt"));
        for heading in ["before: ", "after: "] {
            quotes(set_in(2, term_under(heading, &shown)));
        }
    }
}
