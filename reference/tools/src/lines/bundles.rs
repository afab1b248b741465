//! Lines of `bundles SEED COUNT`: small bundles with the program's output.
//!
//! One bundle a line: `bytes of the bundle;bytes of the output of respond`, both in lower-case
//! hexadecimal, two digits a byte. Bundles are well typed, damaged in a table (1 to 9) or damaged
//! as a bundle (12).

use super::cases::{damaged_sample, small_sample};
use super::Additions;
use crate::generate::bundles::{BundleDamage, BUNDLE_DAMAGES};
use crate::generate::Sample;
use crate::random::Random;
use oracle::listing::respond;

const MOST_WORDS: usize = 30;

/// The line of one random bundle.
pub fn bundle_line(random: &mut Random, additions: Additions) -> String {
    let bytes = match random.below(3) {
        0 => short(random, additions, small_sample).bundle(),
        1 => short(random, additions, damaged_sample).bundle(),
        _ => {
            let mut bytes = short(random, additions, small_sample).bundle();
            let small: Vec<&BundleDamage> = BUNDLE_DAMAGES.iter().filter(|d| d.is_small).collect();
            (random.pick(&small).apply)(random, &mut bytes);
            bytes
        }
    };
    format!("{};{}", hexadecimal(&bytes), hexadecimal(&respond(&bytes)))
}

type Generate = fn(&mut Random, Additions) -> Sample;

/// A sample of at most 30 words.
fn short(random: &mut Random, additions: Additions, generate: Generate) -> Sample {
    loop {
        let sample = generate(random, additions);
        if sample.words() <= MOST_WORDS {
            return sample;
        }
    }
}

fn hexadecimal(bytes: &[u8]) -> String {
    bytes.iter().map(|byte| format!("{byte:02x}")).collect()
}
