//! Times of the program on the named shapes, and of free_inputs: on trees, on words, and the verified
//! library's.

pub mod bundles;
mod clock;
pub mod free_inputs;
mod heap;
pub mod plot;
pub mod report;
pub mod timing;
pub mod workloads;

use crate::verified;
use oracle::listing;
use timing::{time_all, Timing};
use workloads::Workload;

/// An implementation of the program.
#[derive(Clone, Copy)]
pub struct Implementation {
    pub name: &'static str,
    pub respond: fn(&[u8]) -> Vec<u8>,
}

/// The implementations at hand: on words first, the one the others are compared with.
pub fn implementations() -> Vec<Implementation> {
    let on_words = Implementation {
        name: "words",
        respond: baseline::respond,
    };
    let on_trees = Implementation {
        name: "trees",
        respond: listing::respond,
    };
    let verified = verified::RESPOND.map(|respond| Implementation {
        name: "verified",
        respond,
    });
    [on_words, on_trees].into_iter().chain(verified).collect()
}

/// A workload with the times of each implementation, in their order; `None` if left out.
pub struct Measurement {
    pub workload: Workload,
    pub timings: Vec<Option<Timing>>,
}

/// Measures all workloads, calling `finished` after each.
pub fn measure(
    implementations: &[Implementation],
    mut finished: impl FnMut(&Measurement),
) -> Vec<Measurement> {
    heap::keep_freed_memory();
    let mut measurements = Vec::new();
    for workload in workloads::all() {
        let timings = time_all(&workload, implementations);
        let measurement = Measurement { workload, timings };
        finished(&measurement);
        measurements.push(measurement);
    }
    measurements
}
