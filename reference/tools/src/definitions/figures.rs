//! How many rows there are of which sort.

use super::notation::hexadecimal_bytes;
use super::runs::{acting_calls, number_of};
use oracle::rules::RULE_NAMES;
use oracle::words::{unpack_term, UNIT};

/// Of lines of `cases`: refusals, yes answers, and the steps of the accepted ones by rule.
pub fn case_figures(lines: &[String]) -> String {
    let fields: Vec<Vec<&str>> = lines.iter().map(|line| line.split(';').collect()).collect();
    let refusals = tally(fields.iter().map(|fields| fields[8]));
    let yes = fields.iter().filter(|fields| fields[16] == "1").count();
    let mut steps = [0; 10];
    for fields in fields.iter().filter(|fields| fields[8] == "0") {
        for (sum, count) in steps.iter_mut().zip(fields[11].split_whitespace()) {
            *sum += count.parse::<u64>().expect("a count");
        }
    }
    let steps: Vec<String> = RULE_NAMES
        .iter()
        .zip(steps)
        .map(|(rule, count)| format!("{rule} {count}"))
        .collect();
    format!(
        "cases: {} rows; {refusals}; is_normal says yes to {yes}\nsteps of the accepted: {}\n",
        lines.len(),
        steps.join(", ")
    )
}

/// Of lines of `bundles`: refusals.
pub fn bundle_figures(lines: &[String]) -> String {
    let outputs: Vec<String> = lines
        .iter()
        .filter_map(|line| line.split_once(';'))
        .map(|(_, output)| String::from_utf8_lossy(&hexadecimal_bytes(output)).into_owned())
        .collect();
    let refusals = tally(outputs.iter().map(|output| refusal_written(output)));
    format!("bundles: {} rows; {refusals}\n", lines.len())
}

/// The number after `no `, and 0 after `ok `.
fn refusal_written(output: &str) -> &str {
    match output.split_whitespace().collect::<Vec<&str>>()[..] {
        ["no", number, ..] => number,
        _ => "0",
    }
}

/// Of lines of `ends`: how many have an end, and how many words there are.
pub fn ends_figures(lines: &[String]) -> String {
    let fields: Vec<Vec<&str>> = lines.iter().map(|line| line.split(';').collect()).collect();
    let ended = fields.iter().filter(|fields| fields[2] != "-");
    let behind = ended.clone().filter(|fields| {
        let words = fields[1].split_whitespace().count();
        fields[2].parse() != Ok(words)
    });
    format!(
        "ends: {} rows; {} have an end, {} of these with words behind it\n",
        lines.len(),
        ended.clone().count(),
        behind.count()
    )
}

/// Of lines of `runs`: calls made.
pub fn run_figures(lines: &[String]) -> String {
    let calls: Vec<usize> = lines.iter().map(|line| line.matches(':').count()).collect();
    format!(
        "runs: {} rows; {} with calls, {} calls made\n",
        lines.len(),
        calls.iter().filter(|&&calls| calls > 0).count(),
        calls.iter().sum::<usize>()
    )
}

/// Of lines of `inputs`: refusals, and the marks of the accepted ones.
pub fn inputs_figures(lines: &[String]) -> String {
    let fields: Vec<Vec<&str>> = lines.iter().map(|line| line.split(';').collect()).collect();
    let refusals = tally(fields.iter().map(|fields| fields[4]));
    let accepted = || fields.iter().filter(|fields| fields[4] == "0");
    let counts = || accepted().map(|fields| fields[5].parse::<usize>().expect("a count"));
    let greatest = accepted().filter_map(|fields| last_marked(fields[6])).max();
    format!(
        "inputs: {} rows; {refusals}\nof the accepted {} have no mark; {} marks are set; the greatest \
         input marked is {}\n",
        lines.len(),
        counts().filter(|&count| count == 0).count(),
        counts().sum::<usize>(),
        greatest.map_or(String::from("-"), |input| input.to_string())
    )
}

/// Of lines of `ceilings`: refusals.
pub fn ceilings_figures(lines: &[String]) -> String {
    let refusals = tally(
        lines
            .iter()
            .map(|line| line.split(';').nth(9).expect("a refusal")),
    );
    format!("ceilings: {} rows; {refusals}\n", lines.len())
}

/// Of lines of `cases`, `runs` and `inputs`: the terms with a unit, and the accepted among them.
pub fn unit_figures(cases: &[String], runs: &[String], inputs: &[String]) -> String {
    let (in_cases, cases_accepted) = all_and_accepted(cases, has_unit_in, 8);
    let (in_inputs, inputs_accepted) = all_and_accepted(inputs, has_unit_in, 4);
    let in_runs = runs.iter().filter(|line| has_unit_in(line)).count();
    format!(
        "a unit is in {in_cases} terms of cases ({cases_accepted} accepted), in {in_runs} of runs and in \
         {in_inputs} of inputs ({inputs_accepted} accepted)\n"
    )
}

/// Of lines of `cases`, `runs` and `inputs`: the call tables with an acting call, the accepted among
/// them, and the acting calls that the runs make.
pub fn acting_figures(cases: &[String], runs: &[String], inputs: &[String]) -> String {
    let (in_cases, cases_accepted) = all_and_accepted(cases, has_acting_in, 8);
    let (in_inputs, inputs_accepted) = all_and_accepted(inputs, has_acting_in, 4);
    let in_runs = runs.iter().filter(|line| has_acting_in(line)).count();
    let made: usize = runs.iter().map(|line| acting_calls_made(line)).sum();
    format!(
        "a call acts in {in_cases} tables of cases ({cases_accepted} accepted), in {in_runs} of runs, which make \
         {made} acting calls, and in {in_inputs} of inputs ({inputs_accepted} accepted)\n"
    )
}

/// How many lines there are of a sort, and how many of them have refusal 0 in this field.
fn all_and_accepted(
    lines: &[String],
    is_of_sort: fn(&str) -> bool,
    refusal: usize,
) -> (usize, usize) {
    let all = lines.iter().filter(|line| is_of_sort(line));
    let is_accepted = |line: &&String| line.split(';').nth(refusal) == Some("0");
    (all.clone().count(), all.filter(is_accepted).count())
}

/// Whether the call table of a line, its second field, has an acting call.
fn has_acting_in(line: &str) -> bool {
    let calls = line.split(';').nth(1).expect("a call table");
    acting_calls(calls).contains(&true)
}

/// How many acting calls the run of a line makes.
fn acting_calls_made(line: &str) -> usize {
    let fields: Vec<&str> = line.split(';').collect();
    let acts = acting_calls(fields[1]);
    let made = fields[6].split('|').filter(|made| !made.is_empty());
    made.filter(|made| acts[number_of(made)]).count()
}

/// Whether the term of a line, its fourth field, has a unit.
fn has_unit_in(line: &str) -> bool {
    let term = line.split(';').nth(3).expect("a term");
    let mut words = term
        .split_whitespace()
        .map(|word| word.parse::<u64>().expect("a word"));
    words.any(|word| unpack_term(word).0 == UNIT)
}

/// The greatest input that the four words mark.
fn last_marked(marks: &str) -> Option<u32> {
    let words = marks
        .split_whitespace()
        .map(|word| word.parse::<u64>().expect("a word"));
    let marked = (0..).zip(words).filter(|&(_, word)| word != 0);
    let last = marked.map(|(index, word)| 64 * index + 63 - word.trailing_zeros());
    last.last()
}

/// How often each refusal number occurs.
fn tally<'a>(refusals: impl Iterator<Item = &'a str>) -> String {
    let mut counts = [0; 14];
    for refusal in refusals {
        counts[refusal.parse::<usize>().expect("a refusal number")] += 1;
    }
    let refused: Vec<String> = (1..14)
        .filter(|&number| counts[number] > 0)
        .map(|number| format!("{number}: {}", counts[number]))
        .collect();
    format!("{} accepted; refused {}", counts[0], refused.join(", "))
}
