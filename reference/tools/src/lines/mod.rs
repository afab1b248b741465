//! Plain text lines of generated examples, for comparison with another implementation. The last
//! fifth of them has the unit type in its tables, and the fifth before it has calls that act; a few
//! have both.

pub mod bundles;
pub mod cases;
pub mod ceilings;
pub mod ends;
pub mod inputs;
pub mod runs;

use crate::generate::Profile;
use crate::random::Random;
use std::fmt::Display;

/// The longest undamaged term in a line of cases, ceilings, bundles or runs, in words.
const LONGEST_TERM: usize = 25;

/// What an example's tables have that the base dialect does not know.
#[derive(Clone, Copy, Debug, PartialEq, Eq)]
pub struct Additions {
    pub units: bool,
    pub acting: bool,
}

impl Additions {
    /// The profile with these additions.
    fn to(self, profile: Profile) -> Profile {
        let Additions { units, acting } = self;
        Profile {
            units,
            acting,
            ..profile
        }
    }
}

/// The line of one random example with these additions.
pub type Line = fn(&mut Random, Additions) -> String;

/// One of so many lines with the unit type has calls that act too.
const WITH_BOTH: usize = 4;

/// The lines for a seed. Those with units draw numbers of their own, as do those with acting calls.
pub fn lines(line: Line, seed: u64, count: usize) -> impl Iterator<Item = String> {
    let fifth = count / 5;
    let mut random = Random::new(seed);
    let mut units_random = Random::new(!seed);
    let mut acting_random = Random::new(seed.rotate_left(32) ^ 3);
    (0..count).map(move |index| {
        let units = index >= count - fifth;
        let in_acting_fifth = !units && index >= count - 2 * fifth;
        let acting = in_acting_fifth || units && index.is_multiple_of(WITH_BOTH);
        let random = match (units, acting) {
            (_, true) => &mut acting_random,
            (true, false) => &mut units_random,
            (false, false) => &mut random,
        };
        line(random, Additions { units, acting })
    })
}

/// Items separated by single spaces.
fn spaced<T: Display>(items: impl IntoIterator<Item = T>) -> String {
    let items: Vec<String> = items.into_iter().map(|item| item.to_string()).collect();
    items.join(" ")
}
