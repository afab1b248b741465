//! What is timed: the named shapes one by one, and typical terms all together.

use crate::generate::acting_shapes::largest_acting_shapes;
use crate::generate::limits::Limits;
use crate::generate::shapes::{doubling, largest_shapes, typical};
use crate::generate::Sample;
use baseline::normalize_and_measure;

const TYPICAL_TERMS: usize = 200;
/// Random terms with longer walks are not typical.
const TYPICAL_STEPS: u64 = 1000;

/// Samples that are answered one after another.
pub struct Workload {
    pub name: String,
    pub samples: Vec<Sample>,
    pub bundles: Vec<Vec<u8>>,
    /// Words of the terms, steps of the walks, and words of the longest term on any walk.
    pub words: usize,
    pub steps: u64,
    pub longest: usize,
}

/// A workload of these samples.
pub fn workload(name: String, samples: Vec<Sample>) -> Workload {
    let walks: Vec<(u64, usize)> = samples.iter().map(walk_of).collect();
    Workload {
        name,
        bundles: samples.iter().map(Sample::bundle).collect(),
        words: samples.iter().map(|sample| sample.term.len()).sum(),
        steps: walks.iter().map(|walk| walk.0).sum(),
        longest: walks.iter().map(|walk| walk.1).max().unwrap_or(0),
        samples,
    }
}

/// The steps and the longest term of the sample's walk within the program's limits.
fn walk_of(sample: &Sample) -> (u64, usize) {
    let limits = Limits::OF_PROGRAM;
    let [mut output, mut first, mut second] = limits.lengths.map(|length| vec![0; length]);
    let (answer, longest) = normalize_and_measure(
        &sample.types,
        &sample.calls,
        &sample.inputs,
        &sample.term,
        limits.settings,
        [&mut output, &mut first, &mut second],
    );
    let steps = answer.counts.iter().map(|&count| u64::from(count)).sum();
    (steps, longest)
}

/// All workloads.
pub fn all() -> Vec<Workload> {
    let mut typical = typical(1, TYPICAL_TERMS);
    typical.retain(|sample| walk_of(sample).0 <= TYPICAL_STEPS);
    let name = format!("{} typical terms of 13 to 110 words", typical.len());
    let mut workloads = vec![workload(name, typical)];
    for levels in [4, 7] {
        let name = format!("doubling, {levels} levels");
        workloads.push(workload(name, vec![doubling(levels)]));
    }
    for shape in largest_shapes().into_iter().chain(largest_acting_shapes()) {
        workloads.push(workload(shape.name.to_owned(), vec![shape.sample]));
    }
    workloads
}
