//! Timing: medians of repetitions that alternate between the implementations.

use super::clock::processor_time;
use super::workloads::Workload;
use super::Implementation;
use crate::generate::limits::Limits;
use oracle::api::normalize;
use std::hint::black_box;
use std::time::Duration;

/// A repetition does the work as often as takes this long, at least once.
const SHORTEST_REPETITION: Duration = Duration::from_millis(5);
/// Repetitions end after this time for each implementation, or after so many; there are at least
/// seven, so that one during which the machine was slow does not decide, or one if one takes that long.
const ENOUGH: Duration = Duration::from_millis(1500);
const MOST_REPETITIONS: usize = 21;
const FEWEST_REPETITIONS: usize = 7;
const LONG: Duration = Duration::from_secs(5);
/// An implementation that is expected to take longer for one repetition is left out.
const TOO_LONG: Duration = Duration::from_secs(60);
/// What it will take is estimated from the walks' first steps.
const FIRST_STEPS: u32 = 1000;

/// The times of the repetitions, in the order they were made.
#[derive(Clone, Debug)]
pub struct Timing {
    pub times: Vec<Duration>,
}

impl Timing {
    pub fn median(&self) -> Duration {
        let mut times = self.times.clone();
        times.sort();
        times[times.len() / 2]
    }

    pub fn least(&self) -> Duration {
        self.times.iter().min().copied().unwrap_or_default()
    }

    pub fn greatest(&self) -> Duration {
        self.times.iter().max().copied().unwrap_or_default()
    }

    /// The median of the ratios of repetitions that were made one after the other.
    pub fn ratio_to(&self, other: &Timing) -> f64 {
        let pairs = self.times.iter().zip(&other.times);
        let mut ratios: Vec<f64> = pairs
            .map(|(one, other)| one.as_secs_f64() / other.as_secs_f64())
            .collect();
        ratios.sort_by(f64::total_cmp);
        ratios[ratios.len() / 2]
    }
}

/// Times the workload with each implementation; all answers are compared first.
pub fn time_all(workload: &Workload, implementations: &[Implementation]) -> Vec<Option<Timing>> {
    let expected = answers(workload, baseline::respond);
    let samplers = implementations
        .iter()
        .map(|implementation| {
            if implementation.name == "trees" && tree_estimate(workload) > TOO_LONG {
                return None;
            }
            let started = processor_time();
            let found = answers(workload, implementation.respond);
            let once = processor_time() - started;
            assert!(
                found == expected,
                "{} answers otherwise",
                implementation.name
            );
            let respond = implementation.respond;
            let answer_all = move || {
                for bundle in &workload.bundles {
                    black_box(respond(black_box(bundle)));
                }
            };
            Some(Sampler::new(answer_all, once))
        })
        .collect();
    alternate(samplers)
}

/// Makes the repetitions by turns.
pub fn alternate(mut samplers: Vec<Option<Sampler>>) -> Vec<Option<Timing>> {
    for _ in 0..MOST_REPETITIONS {
        for sampler in samplers.iter_mut().flatten() {
            sampler.repeat();
        }
    }
    let timings = samplers.into_iter();
    timings
        .map(|sampler| sampler.map(Sampler::timing))
        .collect()
}

fn answers(workload: &Workload, respond: fn(&[u8]) -> Vec<u8>) -> Vec<Vec<u8>> {
    let bundles = workload.bundles.iter();
    bundles.map(|bundle| respond(bundle)).collect()
}

/// What the workload will take on trees: its first steps take as long as later ones.
fn tree_estimate(workload: &Workload) -> Duration {
    let mut first_steps = 0;
    let started = processor_time();
    for sample in &workload.samples {
        let Limits { settings, lengths } = Limits::with_budget(FIRST_STEPS);
        let mut buffers = lengths.map(|length| vec![0; length]);
        let answer = sample.normalize(normalize, settings, &mut buffers);
        first_steps += answer.counts.iter().sum::<u32>();
    }
    let elapsed = processor_time() - started;
    elapsed.mul_f64(workload.steps as f64 / f64::from(first_steps.max(1)))
}

/// The repetitions of one implementation so far.
pub struct Sampler<'a> {
    /// What is timed.
    work: Box<dyn Fn() + 'a>,
    /// How often a repetition does the work.
    rounds: u32,
    is_long: bool,
    spent: Duration,
    times: Vec<Duration>,
}

impl<'a> Sampler<'a> {
    /// No repetition of this work yet, which took so long once.
    pub fn new(work: impl Fn() + 'a, once: Duration) -> Sampler<'a> {
        let rounds = SHORTEST_REPETITION.as_secs_f64() / once.as_secs_f64().max(1e-9);
        Sampler {
            work: Box::new(work),
            rounds: rounds.ceil() as u32,
            is_long: once > LONG,
            spent: Duration::ZERO,
            times: Vec::new(),
        }
    }

    /// One repetition more, if more are wanted.
    fn repeat(&mut self) {
        let fewest = if self.is_long { 1 } else { FEWEST_REPETITIONS };
        if self.times.len() >= fewest && self.spent > ENOUGH {
            return;
        }
        let started = processor_time();
        for _ in 0..self.rounds {
            (self.work)();
        }
        let elapsed = processor_time() - started;
        self.spent += elapsed;
        self.times.push(elapsed / self.rounds);
    }

    fn timing(self) -> Timing {
        Timing { times: self.times }
    }
}
