//! Lines of `ends`: their fields, and how many have an end.

use oracle::deep_stack::with_deep_stack;
use oracle::ends::part_end;
use oracle::words::{unpack_call, unpack_term, CALL, UNIT};
use std::collections::HashSet;
use std::process::Command;
use tools::lines::ends::ends_line;
use tools::lines::lines;

fn numbers(field: &str) -> Vec<u64> {
    let words = field.split_whitespace().map(str::parse);
    words.map(|word| word.expect("a word")).collect()
}

fn lines_of(seed: u64, count: usize) -> Vec<String> {
    with_deep_stack(|| lines(ends_line, seed, count).collect())
}

#[test]
fn many_have_an_end_and_many_have_none() {
    let (mut ends, mut kinds, mut counts) = (HashSet::new(), HashSet::new(), HashSet::new());
    let (mut without, mut empty, mut without_calls, mut past) = (0, 0, 0, 0);
    for line in lines_of(1, 3000) {
        let fields: Vec<&str> = line.split(';').collect();
        let [calls, words, end] = fields[..] else {
            panic!("{line}")
        };
        let (calls, words) = (numbers(calls), numbers(words));
        assert!(words.len() <= 40);
        let found = part_end(&words, &calls);
        match found {
            Some(found) => assert_eq!(end, found.to_string()),
            None => assert_eq!(end, "-"),
        }
        ends.extend(found);
        without += usize::from(found.is_none());
        empty += usize::from(words.is_empty());
        without_calls += usize::from(calls.is_empty());
        let nodes = words.iter().map(|&word| unpack_term(word));
        let is_past = |(kind, number, _)| kind == CALL && number >= calls.len() as u64;
        past += usize::from(nodes.clone().any(is_past));
        kinds.extend(nodes.map(|(kind, ..)| kind));
        counts.extend(calls.iter().map(|&word| unpack_call(word).0));
    }
    assert!((1000..2000).contains(&without), "{without}");
    assert!(empty > 100 && without_calls > 100 && past > 300);
    assert!((1..25).all(|end| ends.contains(&end)), "{ends:?}");
    assert_eq!((kinds.len(), counts.len()), (16, 16));
}

#[test]
fn the_last_lines_have_units() {
    let lines = lines_of(2, 1000);
    let has_unit = |line: &&String| {
        let term = numbers(line.split(';').nth(1).expect("the words"));
        term.iter().any(|&word| unpack_term(word).0 == UNIT)
    };
    let fifths = [&lines[..200], &lines[800..]];
    let [first, last] = fifths.map(|lines| lines.iter().filter(has_unit).count());
    assert!(last > first + 20, "{first} and {last}");
}

#[test]
fn the_command_prints_them() {
    let output = Command::new(env!("CARGO_BIN_EXE_reference"))
        .args(["ends", "3", "50"])
        .output()
        .expect("the command runs");
    assert!(output.status.success());
    let text = String::from_utf8(output.stdout).expect("lines are text");
    let printed: Vec<&str> = text.lines().collect();
    assert_eq!(printed, lines_of(3, 50));
}
