//! The command: its subcommands and the formats of its lines.

use oracle::words::{pack_type, UNIT_TYPE};
use std::collections::HashSet;
use std::io::Write;
use std::process::{Command, Output, Stdio};
use tools::definitions::notation::hexadecimal_bytes;
use tools::generate::Sample;

fn run_command(arguments: &[&str], input: &[u8]) -> Output {
    let mut child = Command::new(env!("CARGO_BIN_EXE_reference"))
        .args(arguments)
        .stdin(Stdio::piped())
        .stdout(Stdio::piped())
        .stderr(Stdio::piped())
        .spawn()
        .expect("the command starts");
    let mut stdin = child.stdin.take().expect("standard input is piped");
    // The command may end before it has read everything.
    let _ = stdin.write_all(input);
    drop(stdin);
    child.wait_with_output().expect("the command ends")
}

fn lines(arguments: &[&str]) -> Vec<String> {
    let output = run_command(arguments, &[]);
    assert!(output.status.success());
    let text = String::from_utf8(output.stdout).expect("lines are text");
    text.lines().map(str::to_owned).collect()
}

#[test]
fn respond_answers_on_standard_output() {
    let output = run_command(&["respond"], &[0; 8]);
    assert!(output.status.success());
    assert_eq!(output.stdout, b"no 1 0 0 0 0 0 0 0 0 0 0\n");
    let output = run_command(&["respond"], &[0; 100_000]);
    assert_eq!(output.stdout, b"no 12 0 0 0 0 0 0 0 0 0 0\n");
}

#[test]
fn show_tells_why_there_is_nothing_to_show() {
    let output = run_command(&["show"], &[0; 8]);
    assert!(output.status.success());
    assert_eq!(output.stdout, b"refused with 1\n");
}

#[test]
fn show_writes_a_line_for_each_word() {
    let header_and_base_type_and_variable = [1 << 51 | 1 << 25 | 1 << 12, 0, 0, 0];
    let bundle = header_and_base_type_and_variable.map(u64::to_be_bytes);
    let output = run_command(&["show", "--words"], &bundle.concat());
    assert!(output.status.success());
    let expected = "\
header            types  calls  inputs  term
0008000002001000      1      0       1     1

types             kind  left  right
0000000000000000     0     0      0  t0 = b0

calls             count  result  their types

inputs            type
0000000000000000     0  i0: b0

term              kind  number  type
0000000000000000     0       0     0  i0
";
    assert_eq!(String::from_utf8(output.stdout), Ok(expected.to_owned()));
}

#[test]
fn cases_cover_all_refusals() {
    let lines = lines(&["cases", "1", "1000"]);
    assert_eq!(lines.len(), 1000);
    let mut refusals = HashSet::new();
    for line in &lines {
        let fields: Vec<&str> = line.split(';').collect();
        assert_eq!(fields.len(), 20);
        let length: usize = fields[10].parse().expect("a length");
        assert_eq!(fields[11].split_whitespace().count(), 10);
        assert_eq!(fields[12].split_whitespace().count(), length);
        refusals.insert(fields[8].parse::<u32>().expect("a refusal number"));
        assert_eq!(fields[17], fields[13]);
        assert_eq!(fields[18].parse(), Ok(marks_set(fields[19])));
    }
    assert_eq!(refusals, (0..12).collect());
}

/// How many bits are set in four words.
fn marks_set(marks: &str) -> u32 {
    let words: Vec<u64> = marks
        .split_whitespace()
        .map(|word| word.parse().expect("a word"))
        .collect();
    assert_eq!(words.len(), 4);
    words.iter().map(|word| word.count_ones()).sum()
}

#[test]
fn bundles_are_accepted_and_refused() {
    let lines = lines(&["bundles", "1", "500"]);
    assert_eq!(lines.len(), 500);
    let outputs: Vec<&str> = lines
        .iter()
        .filter_map(|line| line.split(';').nth(1))
        .collect();
    let starting = |start: &str| outputs.iter().filter(|o| o.starts_with(start)).count();
    let (accepted, twelve) = (starting("6f6b20"), starting("6e6f20313220"));
    assert!(accepted > 100 && twelve > 100);
}

#[test]
fn runs_have_seven_fields() {
    let lines = lines(&["runs", "1", "500"]);
    assert_eq!(lines.len(), 500);
    assert!(lines.iter().all(|line| line.split(';').count() == 7));
    let with_calls = lines.iter().filter(|line| line.contains(':')).count();
    assert!(with_calls > 200);
    assert!(lines.iter().all(|line| !line.contains('f')));
}

#[test]
fn inputs_are_few_and_many() {
    let lines = lines(&["inputs", "1", "1000"]);
    assert_eq!(lines.len(), 1000);
    let (mut refusals, mut lengths) = (HashSet::new(), HashSet::new());
    let mut marks = 0;
    for line in &lines {
        let fields: Vec<&str> = line.split(';').collect();
        assert_eq!(fields.len(), 7);
        lengths.insert(fields[2].split_whitespace().count());
        assert!(fields[3].split_whitespace().count() <= 40);
        refusals.insert(fields[4].parse::<u32>().expect("a refusal number"));
        assert_eq!(fields[5].parse(), Ok(marks_set(fields[6])));
        marks += marks_set(fields[6]);
    }
    assert_eq!(refusals, (0..10).collect());
    assert!([0, 1, 63, 64, 65, 128, 255, 256]
        .iter()
        .all(|length| lengths.contains(length)));
    assert!(marks > 1000, "{marks} marks");
}

/// The tables of a line of any subcommand, unless it is a bundle that cannot be read.
fn sample_of(subcommand: &str, line: &str) -> Option<Sample> {
    let fields: Vec<&str> = line.split(';').collect();
    if subcommand == "bundles" {
        return Sample::from_bundle(&hexadecimal_bytes(fields[0])).ok();
    }
    let words = |field: &str| {
        let words = field.split_whitespace().map(|word| word.parse());
        words.map(|word| word.expect("a word")).collect()
    };
    Some(Sample {
        types: words(fields[0]),
        calls: words(fields[1]),
        inputs: words(fields[2]),
        term: words(fields[3]),
    })
}

/// How many of the samples are wanted: among the first three fifths, the next and the last.
fn shares(subcommand: &str, wanted: fn(&Sample) -> bool) -> [usize; 3] {
    let lines = lines(&[subcommand, "1", "500"]);
    [&lines[..300], &lines[300..400], &lines[400..]].map(|lines| {
        let samples = lines.iter().filter_map(|line| sample_of(subcommand, line));
        samples.filter(wanted).count()
    })
}

fn has_unit_type(sample: &Sample) -> bool {
    sample.types.contains(&pack_type(UNIT_TYPE, 0, 0))
}

#[test]
fn the_last_lines_have_units() {
    for (subcommand, most_before, least) in [
        ("cases", 10, 70),
        ("ceilings", 10, 70),
        ("runs", 0, 100),
        ("inputs", 10, 80),
        ("bundles", 10, 50),
    ] {
        let [plain, acting, last] = shares(subcommand, has_unit_type);
        assert!(
            plain + acting <= most_before && last >= least,
            "{subcommand}"
        );
        // The old lines keep the faults that unit words were.
        let [plain, acting, last] = shares(subcommand, Sample::has_unit);
        assert!(plain + acting < 20 && last > 20, "{subcommand}: {last}");
    }
}

#[test]
fn the_lines_before_them_have_acting_calls() {
    for (subcommand, most_before, least) in [
        ("cases", 10, 75),
        ("ceilings", 10, 75),
        ("runs", 0, 100),
        ("inputs", 10, 80),
        ("bundles", 10, 50),
    ] {
        // The old lines keep the faults that the counts of acting calls were.
        let [plain, acting, last] = shares(subcommand, Sample::has_acting_call);
        assert!(
            plain <= most_before && acting >= least,
            "{subcommand}: {acting}"
        );
        assert!((15..=30).contains(&last), "{subcommand}: {last}");
        let both = |sample: &Sample| sample.has_acting_call() && has_unit_type(sample);
        let [plain, acting, last] = shares(subcommand, both);
        assert!(plain + acting < 5 && last > 10, "{subcommand}: {last}");
    }
}

#[test]
fn anything_else_prints_the_usage() {
    for arguments in [
        &[][..],
        &["nothing"],
        &["cases", "1"],
        &["cases", "x", "1"],
        &["ceilings", "1"],
        &["ends", "1"],
        &["show", "--svg", "file"],
        &["examples"],
        &["corpus", "file"],
        &["bench", "--plot"],
        &["bench", "--inputs", "file"],
        &["definitions", "repository", "folder", "x", "1"],
    ] {
        let output = run_command(arguments, &[]);
        assert_eq!(output.status.code(), Some(2));
        assert!(output.stdout.is_empty());
        assert!(output.stderr.starts_with(b"usage: reference"));
    }
}
