//! The command: `reference SUBCOMMAND [ARGUMENTS]`, see `USAGE`.

use oracle::deep_stack::with_deep_stack;
use oracle::listing::respond;
use std::env;
use std::fs;
use std::io::{self, BufWriter, Error, Read, Write};
use std::path::Path;
use std::process::ExitCode;
use tools::bench::bundles::bundles_file;
use tools::bench::free_inputs::{find, finders};
use tools::bench::plot::plot;
use tools::bench::workloads;
use tools::bench::{implementations, measure, report};
use tools::corpus::contents::records;
use tools::corpus::corpus;
use tools::definitions::check::run_check;
use tools::definitions::repository::write_repository;
use tools::examples::files;
use tools::generate::long_readings::longest_readings;
use tools::lines::bundles::bundle_line;
use tools::lines::cases::case_line;
use tools::lines::ceilings::ceilings_line;
use tools::lines::ends::ends_line;
use tools::lines::inputs::inputs_line;
use tools::lines::runs::run_line;
use tools::lines::{lines, Line};
use tools::show::legend::Legend;
use tools::show::report::{show, Shown};

const USAGE: &str = "usage: reference SUBCOMMAND
  respond             a bundle on standard input, its listing on standard output
  show                a bundle on standard input as readable text, before and after normalizing
  show --svg BEFORE AFTER
                      the same, and both terms drawn as trees
  show --words        the words of a bundle, each with its fields and what it stands for
  cases SEED COUNT    lines of small cases with their answers
  ceilings SEED COUNT lines of small cases with ceilings for the rules, and the answers of normalize
  bundles SEED COUNT  lines of small bundles with their listings
  runs SEED COUNT     lines of small terms with a run of each
  inputs SEED COUNT   lines of short terms over up to 256 inputs, with those they read
                      (the last fifth of all these lines has the unit type in its tables, and
                      the fifth before it has calls that act)
  ends SEED COUNT     lines of any words, with the end of the part at their front
  definitions REPOSITORY DIR SEED COUNT
                      the definitions of REPOSITORY/crates checked against such lines by rt, in a
                      repository written into DIR: COUNT cases, a fifth as many bundles, a quarter
                      as many runs, a fifth as many of inputs, half as many of ceilings and of ends
  examples REPOSITORY the examples written into REPOSITORY/examples and REPOSITORY/docs/pictures
  corpus STDIN STDOUT the records of a test program, and what it writes
  bench [--plot FILE] times on the named shapes as a table, and as an SVG plot (release build)
  bench --inputs      times of free_inputs on terms of 8,192 words (release build)
  bench --bundles FILE
                      the bundles of the named shapes written into FILE, for tools/orders
";

/// A bundle is refused from this length on, so that no more is read.
const MOST_BYTES_READ: u64 = 65_537;

fn main() -> ExitCode {
    let arguments: Vec<String> = env::args().skip(1).collect();
    match with_deep_stack(|| dispatch(&arguments)) {
        Ok(true) => ExitCode::SUCCESS,
        Ok(false) => {
            eprint!("{USAGE}");
            ExitCode::from(2)
        }
        Err(error) => {
            eprintln!("reference: {error}");
            ExitCode::FAILURE
        }
    }
}

/// Does the subcommand; answers false if there is no such subcommand.
fn dispatch(arguments: &[String]) -> io::Result<bool> {
    let arguments: Vec<&str> = arguments.iter().map(String::as_str).collect();
    match arguments[..] {
        ["respond"] => respond_to_standard_input(),
        ["show"] => show_standard_input(print_text),
        ["show", "--words"] => show_standard_input(print_words),
        ["show", "--svg", before, after] => {
            show_standard_input(|shown| write_drawings(shown, before, after))
        }
        ["cases", seed, count] => print_lines(seed, count, case_line),
        ["ceilings", seed, count] => print_lines(seed, count, ceilings_line),
        ["bundles", seed, count] => print_lines(seed, count, bundle_line),
        ["runs", seed, count] => print_lines(seed, count, run_line),
        ["inputs", seed, count] => print_lines(seed, count, inputs_line),
        ["ends", seed, count] => print_lines(seed, count, ends_line),
        ["examples", repository] => write_examples(Path::new(repository)),
        ["corpus", input, output] => write_corpus(Path::new(input), Path::new(output)),
        ["bench"] => bench(None),
        ["bench", "--plot", file] => bench(Some(Path::new(file))),
        ["bench", "--inputs"] => bench_free_inputs(),
        ["bench", "--bundles", file] => write_bundles(Path::new(file)),
        ["definitions", repository, folder, seed, count] => {
            check_definitions(Path::new(repository), Path::new(folder), seed, count)
        }
        _ => Ok(false),
    }
}

fn read_standard_input() -> io::Result<Vec<u8>> {
    let mut bytes = Vec::new();
    io::stdin().take(MOST_BYTES_READ).read_to_end(&mut bytes)?;
    Ok(bytes)
}

fn respond_to_standard_input() -> io::Result<bool> {
    io::stdout().write_all(&respond(&read_standard_input()?))?;
    Ok(true)
}

/// Hands the bundle on standard input to `write`, or says with what it was refused.
fn show_standard_input(write: impl FnOnce(Shown) -> io::Result<()>) -> io::Result<bool> {
    match show(&read_standard_input()?, Legend::default()) {
        Ok(shown) => write(shown)?,
        Err(refusal) => println!("refused with {}", refusal.number()),
    }
    Ok(true)
}

fn print_text(shown: Shown) -> io::Result<()> {
    print!("{}", shown.text());
    Ok(())
}

fn print_words(shown: Shown) -> io::Result<()> {
    print!("{}", shown.words());
    Ok(())
}

fn write_drawings(shown: Shown, before_file: &str, after_file: &str) -> io::Result<()> {
    let (before, after) = shown.drawings();
    fs::write(before_file, before)?;
    if let Some(after) = after {
        fs::write(after_file, after)?;
    }
    print_text(shown)
}

fn print_lines(seed: &str, count: &str, line: Line) -> io::Result<bool> {
    let (Ok(seed), Ok(count)) = (seed.parse(), count.parse()) else {
        return Ok(false);
    };
    let mut output = BufWriter::new(io::stdout().lock());
    for line in lines(line, seed, count) {
        writeln!(output, "{line}")?;
    }
    output.flush()?;
    Ok(true)
}

fn write_examples(repository: &Path) -> io::Result<bool> {
    for file in files() {
        fs::write(repository.join(file.path), file.contents)?;
    }
    Ok(true)
}

fn write_corpus(input: &Path, output: &Path) -> io::Result<bool> {
    let corpus = corpus(&records());
    fs::write(input, corpus.input)?;
    fs::write(output, corpus.output)?;
    Ok(true)
}

fn bench(plot_file: Option<&Path>) -> io::Result<bool> {
    let implementations = implementations();
    println!("{}", report::legend(&implementations));
    println!("{}", report::head(&implementations));
    let measurements = measure(&implementations, |measurement| {
        println!("{}", report::line(measurement));
    });
    if let Some(file) = plot_file {
        fs::write(file, plot(&implementations, &measurements))?;
    }
    Ok(true)
}

fn bench_free_inputs() -> io::Result<bool> {
    let finders = finders();
    println!("{}", report::legend_of_free_inputs(&finders));
    println!("{}", report::head_of_free_inputs(&finders));
    for shape in longest_readings() {
        println!("{}", report::line_of_free_inputs(&find(shape, &finders)));
    }
    Ok(true)
}

fn write_bundles(file: &Path) -> io::Result<bool> {
    fs::write(file, bundles_file(&workloads::all()))?;
    Ok(true)
}

fn check_definitions(
    repository: &Path,
    folder: &Path,
    seed: &str,
    count: &str,
) -> io::Result<bool> {
    let (Ok(seed), Ok(count)) = (seed.parse(), count.parse()) else {
        return Ok(false);
    };
    print!("{}", write_repository(repository, folder, seed, count)?);
    io::stdout().flush()?;
    let (report, is_proved) = run_check(folder)?;
    print!("{report}");
    if !is_proved {
        return Err(Error::other("rt check has refused a table of rows"));
    }
    Ok(true)
}
