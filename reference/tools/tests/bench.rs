//! The benchmark's table and plot, on made-up times, and the file of its bundles.

use std::time::Duration;
use tools::bench::bundles::bundles_file;
use tools::bench::free_inputs::{find, finders, Found};
use tools::bench::plot::plot;
use tools::bench::timing::{time_all, Timing};
use tools::bench::workloads::{self, Workload};
use tools::bench::{implementations, report, Measurement};
use tools::generate::long_readings::lets_of_inputs;
use tools::generate::shapes::{doubling, shape};

fn workload(steps: u64, longest: usize) -> Workload {
    Workload {
        steps,
        longest,
        ..workloads::workload("made up".into(), vec![doubling(3)])
    }
}

fn timing(microseconds: u64) -> Timing {
    let median = Duration::from_micros(microseconds);
    Timing {
        times: vec![median / 2, median, median * 2],
    }
}

#[test]
fn lines_have_the_columns_of_the_head() {
    let implementations = implementations();
    let mut timings = vec![None; implementations.len()];
    timings[0] = Some(timing(440));
    let mut measurement = Measurement {
        workload: workload(44, 100),
        timings,
    };
    let columns = |line: &str| line.split(" | ").count();
    let head = report::head(&implementations);
    let line = report::line(&measurement);
    assert!(head.lines().all(|head| columns(head) == columns(&line)));
    assert!(line.contains("440.00 µs (50 to 200 %, 3) | 10.00 µs | - | - | -"));
    measurement.timings[1] = Some(timing(1100));
    assert!(report::line(&measurement).contains("| 25.00 µs | 2.50 |"));
}

#[test]
fn names_and_bundles_come_after_their_lengths() {
    let two = workloads::workload("two".into(), vec![doubling(1), doubling(2)]);
    let bundles = two.bundles.clone();
    let file = bundles_file(&[two, workload(44, 100)]);
    let mut expected = vec![0, 0, 0, 2, 0, 0, 0, 3];
    expected.extend(b"two");
    expected.extend([0, 0, 0, 2]);
    for bundle in &bundles {
        expected.extend([0, 0, 0, u8::try_from(bundle.len()).unwrap()]);
        expected.extend(bundle);
    }
    expected.extend([0, 0, 0, 7]);
    expected.extend(b"made up");
    expected.extend([0, 0, 0, 1]);
    assert_eq!(file[..expected.len()], expected);
    let last = doubling(3).bundle();
    assert_eq!(file[expected.len() + 4..], last);
}

#[test]
fn plots_have_a_point_for_each_time() {
    let implementations = implementations();
    let measurements: Vec<Measurement> = [(44, 100), (1000, 1000), (5, 10)]
        .iter()
        .map(|&(steps, longest)| Measurement {
            workload: workload(steps, longest),
            timings: vec![Some(timing(500)); implementations.len()],
        })
        .collect();
    let drawing = plot(&implementations, &measurements);
    // Two of the workloads have enough steps; each implementation has a mark in the legend.
    let circles = drawing.matches("<circle").count();
    assert_eq!(circles, 3 * implementations.len());
    assert!(drawing.ends_with("</svg>\n"));
}

#[test]
fn times_of_a_small_workload() {
    let implementations = implementations();
    let timings = time_all(&workload(44, 60), &implementations);
    assert_eq!(timings.len(), implementations.len());
    for timing in timings.into_iter().flatten() {
        assert!(timing.least() <= timing.median() && timing.median() <= timing.greatest());
        assert!(timing.times.len() >= 3);
    }
}

#[test]
fn free_inputs_have_a_table_of_their_own() {
    let finders = finders();
    let mut found = find(shape("lets", lets_of_inputs(20)), &finders);
    assert_eq!((found.marks, found.timings.len()), (21, finders.len()));
    let columns = |line: &str| line.split(" | ").count();
    let head = report::head_of_free_inputs(&finders);
    let line = report::line_of_free_inputs(&found);
    assert!(head.lines().all(|head| columns(head) == columns(&line)));
    assert!(head.starts_with("| shape | words | marks | on words | a word | on trees |"));

    let made_up = [Some(timing(62)), Some(timing(31))];
    found.timings = made_up.into_iter().collect();
    let line = report::line_of_free_inputs(&Found { marks: 5, ..found });
    assert!(line.starts_with("| lets | 62 | 5 | 62.00 µs (50 to 200 %, 3) | 1.00 µs |"));
    assert!(line.ends_with("| 31.00 µs (50 to 200 %, 3) | 500 ns | 0.50 |"));
}
