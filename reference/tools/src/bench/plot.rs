//! A plot of time per step against the longest term of the walk, both on logarithmic scales.

use super::{Implementation, Measurement};
use crate::svg::{Anchor, Drawing};

const WIDTH: f64 = 800.0;
const HEIGHT: f64 = 560.0;
const LEFT: f64 = 80.0;
const RIGHT: f64 = 30.0;
const TOP: f64 = 50.0;
const BOTTOM: f64 = 60.0;
const COLOURS: [&str; 3] = ["#1f77b4", "#999999", "#d62728"];
/// With fewer steps a step's time is mostly that of the checks and the listing.
const FEWEST_STEPS: u64 = 30;

/// A point: words of the longest term, and nanoseconds a step.
type Point = (f64, f64);

/// The plot as SVG text, one colour for each implementation.
pub fn plot(implementations: &[Implementation], measurements: &[Measurement]) -> String {
    let series: Vec<Vec<Point>> = (0..implementations.len())
        .map(|index| points(measurements, index))
        .collect();
    let all: Vec<Point> = series.iter().flatten().copied().collect();
    let (x_axis, y_axis) = (Axis::over(&all, |p| p.0), Axis::over(&all, |p| p.1));
    let place = |(x, y): Point| {
        let across = x_axis.part(x) * (WIDTH - LEFT - RIGHT);
        let up = y_axis.part(y) * (HEIGHT - TOP - BOTTOM);
        (LEFT + across, HEIGHT - BOTTOM - up)
    };
    let mut drawing = Drawing::new(WIDTH, HEIGHT);
    let (low, high) = ((x_axis.low, y_axis.low), (x_axis.high, y_axis.high));
    for tick in x_axis.ticks() {
        let bottom = place((tick, low.1));
        drawing.line(bottom, place((tick, high.1)), "#ddd");
        let below = (bottom.0, bottom.1 + 18.0);
        drawing.label(below, Anchor::Middle, &format!("{tick:.0}"));
    }
    for tick in y_axis.ticks() {
        let left = place((low.0, tick));
        drawing.line(left, place((high.0, tick)), "#ddd");
        let beside = (left.0 - 8.0, left.1 + 4.0);
        drawing.label(beside, Anchor::End, &nanoseconds_text(tick));
    }
    let middle = (LEFT + (WIDTH - LEFT - RIGHT) / 2.0, HEIGHT - 16.0);
    drawing.label(
        middle,
        Anchor::Middle,
        "words of the longest term on the walk",
    );
    drawing.label((LEFT, TOP - 30.0), Anchor::Start, "time per step");
    for (index, points) in series.iter().enumerate() {
        let colour = COLOURS[index % COLOURS.len()];
        let entry = (LEFT + 160.0 + 110.0 * index as f64, TOP - 30.0);
        drawing.circle((entry.0 - 10.0, entry.1 - 4.0), 5.0, colour);
        drawing.label(entry, Anchor::Start, implementations[index].name);
        for &point in points {
            drawing.circle(place(point), 4.5, colour);
        }
    }
    drawing.text()
}

fn points(measurements: &[Measurement], index: usize) -> Vec<Point> {
    measurements
        .iter()
        .filter(|measurement| measurement.workload.steps >= FEWEST_STEPS)
        .filter_map(|measurement| {
            let timing = measurement.timings[index].as_ref()?;
            let nanoseconds = timing.median().as_secs_f64() * 1e9;
            let per_step = nanoseconds / measurement.workload.steps as f64;
            Some((measurement.workload.longest as f64, per_step))
        })
        .collect()
}

fn nanoseconds_text(nanoseconds: f64) -> String {
    match nanoseconds {
        1e6.. => format!("{:.0} ms", nanoseconds / 1e6),
        1e3.. => format!("{:.0} µs", nanoseconds / 1e3),
        _ => format!("{nanoseconds:.0} ns"),
    }
}

/// A logarithmic axis from one power of ten to another.
struct Axis {
    low: f64,
    high: f64,
}

impl Axis {
    fn over(points: &[Point], coordinate: fn(&Point) -> f64) -> Axis {
        let logarithms = || points.iter().map(|point| coordinate(point).log10());
        let low = logarithms().fold(f64::INFINITY, f64::min).floor();
        let high = logarithms().fold(f64::NEG_INFINITY, f64::max).ceil();
        Axis {
            low: 10f64.powf(low),
            high: 10f64.powf(high.max(low + 1.0)),
        }
    }

    /// Where a number lies, from 0 to 1.
    fn part(&self, number: f64) -> f64 {
        (number / self.low).log10() / (self.high / self.low).log10()
    }

    fn ticks(&self) -> impl Iterator<Item = f64> {
        let (low, high) = (self.low.log10().round(), self.high.log10().round());
        (low as i32..=high as i32).map(|power| 10f64.powi(power))
    }
}
