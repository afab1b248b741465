//! Accepted samples: random terms, normal forms and terms near them, the named shapes, the shipped
//! examples.

use super::{Contents, MOST_STEPS};
use crate::generate::deep::moderate_deep_shapes;
use crate::generate::examples::base_examples;
use crate::generate::limits::{needs, Limits, Needs};
use crate::generate::shapes::{moderate_shapes, typical};
use crate::generate::Sample;
use oracle::coding::encode;
use oracle::reduction::sequence;

const MOST_WORDS_LISTED: usize = 20_000;

impl Contents {
    pub fn accepted(&mut self) {
        for _ in 0..400 {
            let (sample, needs) = self.sample(40);
            let limits = self.ample(needs);
            self.all_calls(&sample, limits);
        }
        for sample in typical(7, 60) {
            if let Some(needs) = needs(&sample, MOST_STEPS) {
                let limits = self.ample(needs);
                self.all_calls(&sample, limits);
            }
        }
        for _ in 0..200 {
            let (sample, _) = self.sample(30);
            self.end_of_walk(&sample);
        }
        for shape in moderate_shapes().into_iter().chain(moderate_deep_shapes()) {
            self.all_calls(&shape.sample, Limits::OF_PROGRAM);
        }
        for example in base_examples() {
            self.all_calls(&example.sample, Limits::OF_PROGRAM);
        }
    }

    /// The sample's normal form, and the terms one and two steps before it.
    pub fn end_of_walk(&mut self, sample: &Sample) {
        let checked = sample.examine().ok();
        let walk =
            checked.and_then(|checked| sequence(&checked.tables, &checked.term, MOST_WORDS_LISTED));
        let terms = walk.map(|walk| walk.terms).unwrap_or_default();
        for (steps, term) in (0..3).zip(terms.iter().rev()) {
            let later = Sample {
                term: encode(term),
                ..sample.clone()
            };
            let capacity = 2 * later.term.len();
            let limits = self.ample(Needs { steps, capacity });
            self.is_normal(&later);
            self.normalize(&later, limits);
        }
    }
}
