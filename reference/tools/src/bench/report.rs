//! The report: one line for each workload, or for each shape of free_inputs, as a table in Markdown.

use super::free_inputs::{Finder, Found};
use super::timing::Timing;
use super::{Implementation, Measurement};
use std::time::Duration;

/// What the table's columns are, and whether one is missing.
pub fn legend(implementations: &[Implementation]) -> String {
    let names = implementations.iter().map(|one| one.name);
    table_legend(OF_PROGRAM, names)
}

/// The same for the table of free_inputs.
pub fn legend_of_free_inputs(finders: &[Finder]) -> String {
    table_legend(OF_FREE_INPUTS, finders.iter().map(|finder| finder.name))
}

fn table_legend(what: &str, mut names: impl Iterator<Item = &'static str>) -> String {
    let is_linked = names.any(|name| name == "verified");
    let missing = "The verified library was not linked: see build.rs.\n";
    format!("{what}{COLUMNS}{}", if is_linked { "" } else { missing })
}

const OF_PROGRAM: &str = "\
Times are medians of processor time from a bundle's bytes to its listing's bytes: the checks, and
allocating and clearing the buffers, are included. What would take longer than a minute was left
out: `-`.
";

const OF_FREE_INPUTS: &str = "\
Times are medians of processor time of free_inputs, from the words of the tables and the term to the
marks: the checks are included.
";

const COLUMNS: &str = "\
After each: the least and the greatest repetition as percent of the median, and the number of
repetitions. The repetitions of the implementations alternate in one process. A ratio is to the time
on words, the median over repetitions made one after the other.
";

/// The two lines of the table's head.
pub fn head(implementations: &[Implementation]) -> String {
    let names = implementations.iter().map(|one| one.name);
    table_head(&["shape", "words", "longest", "steps"], names, "a step")
}

/// The two lines of the head of the table of free_inputs.
pub fn head_of_free_inputs(finders: &[Finder]) -> String {
    let names = finders.iter().map(|finder| finder.name);
    table_head(&["shape", "words", "marks"], names, "a word")
}

fn table_head(
    first: &[&str],
    names: impl Iterator<Item = &'static str>,
    share: &'static str,
) -> String {
    let mut columns: Vec<String> = first.iter().map(|&name| name.into()).collect();
    for name in names {
        columns.push(format!("on {name}").replace("on verified", "verified"));
        columns.push(share.into());
        if name != "words" {
            columns.push("ratio".into());
        }
    }
    let rule: Vec<&str> = columns.iter().map(|_| "---").collect();
    format!("{}\n{}", row(&columns), row(&rule))
}

/// The line of one measurement.
pub fn line(measurement: &Measurement) -> String {
    let workload = &measurement.workload;
    let columns = vec![
        workload.name.clone(),
        workload.words.to_string(),
        workload.longest.to_string(),
        workload.steps.to_string(),
    ];
    table_line(columns, &measurement.timings, workload.steps)
}

/// The line of one shape of free_inputs.
pub fn line_of_free_inputs(found: &Found) -> String {
    let words = found.shape.sample.term.len();
    let columns = vec![
        found.shape.name.to_owned(),
        words.to_string(),
        found.marks.to_string(),
    ];
    table_line(columns, &found.timings, words as u64)
}

/// The first columns, then the times, and the time of each of so many shares.
fn table_line(mut columns: Vec<String>, timings: &[Option<Timing>], shares: u64) -> String {
    let none = || String::from("-");
    for (index, timing) in timings.iter().enumerate() {
        let timing = timing.as_ref();
        columns.push(timing.map_or_else(none, timing_text));
        columns.push(timing.map_or_else(none, |timing| share_text(timing, shares)));
        if index > 0 {
            let on_words = timings[0].as_ref();
            let ratio = timing.zip(on_words).map(|(one, other)| one.ratio_to(other));
            columns.push(ratio.map_or_else(none, |ratio| format!("{ratio:.2}")));
        }
    }
    row(&columns)
}

fn row(columns: &[impl AsRef<str>]) -> String {
    let columns: Vec<&str> = columns.iter().map(AsRef::as_ref).collect();
    format!("| {} |", columns.join(" | "))
}

fn timing_text(timing: &Timing) -> String {
    let median = timing.median();
    let percent = |time: Duration| 100.0 * time.as_secs_f64() / median.as_secs_f64();
    format!(
        "{} ({:.0} to {:.0} %, {})",
        seconds_text(median.as_secs_f64()),
        percent(timing.least()),
        percent(timing.greatest()),
        timing.times.len()
    )
}

fn share_text(timing: &Timing, shares: u64) -> String {
    match shares {
        0 => "-".into(),
        _ => seconds_text(timing.median().as_secs_f64() / shares as f64),
    }
}

fn seconds_text(seconds: f64) -> String {
    match seconds {
        1.0.. => format!("{seconds:.2} s"),
        1e-3.. => format!("{:.2} ms", seconds * 1e3),
        1e-6.. => format!("{:.2} µs", seconds * 1e6),
        1e-7.. => format!("{:.0} ns", seconds * 1e9),
        _ => format!("{:.1} ns", seconds * 1e9),
    }
}
