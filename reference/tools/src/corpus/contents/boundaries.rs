//! Tables and bundles at their limits and just past them.

use super::{Contents, LONGEST_BUFFER};
use crate::generate::boundaries::*;
use crate::generate::limits::Limits;
use crate::generate::Sample;
use oracle::bundle::write_bundle;

const LONGEST: Limits = Limits {
    lengths: [LONGEST_BUFFER; 3],
    ..Limits::OF_PROGRAM
};

impl Contents {
    pub fn boundaries(&mut self) {
        self.tables();
        self.terms();
        self.bundles();
    }

    fn tables(&mut self) {
        let without_term = Sample {
            term: Vec::new(),
            ..with_inputs(1)
        };
        // The length is looked at before the words.
        let bad_types = Sample {
            types: vec![u64::MAX; 1025],
            ..with_inputs(1)
        };
        for sample in [
            with_types(1024),
            with_types(1025),
            with_calls(1024),
            with_calls(1025),
            with_inputs(256),
            with_inputs(257),
            without_term,
            bad_types,
        ] {
            self.all_calls(&sample, LONGEST);
        }
    }

    fn terms(&mut self) {
        for words in [4096, 4097] {
            self.respond(unused_lets(words).bundle());
            self.normalize(&unused_lets(words), LONGEST);
        }
        for words in [8192, 8193] {
            self.check(&nested_calls(words));
            self.is_normal(&unused_lets(words));
        }
        self.is_normal(&normal_chain(2730));
        self.normalize(&normal_chain(1364), LONGEST);
        // n words need 3n - 2: the most that 8,192 words hold, and one more.
        self.normalize(&nested_calls(2731), LONGEST);
        self.normalize(&nested_calls(2732), LONGEST);
        self.respond(nested_calls(2732).bundle());
    }

    fn bundles(&mut self) {
        for bytes in 0..=16 {
            self.respond(vec![0; bytes]);
        }
        let mut largest = write_bundle(&[1; 4], &[2; 2], &[3; 6], &[4; 8179]);
        self.respond(largest.clone());
        largest.push(0);
        self.respond(largest);
        // Too long, though its header says so.
        self.respond(write_bundle(&[0; 4], &[0; 2], &[0; 6], &[0; 8180]));
    }
}
