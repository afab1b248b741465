//! What a caller of `normalize` sets.

use crate::Counts;

/// How many steps may be taken, and how often each rule may be used. Raising any of these numbers
/// keeps every accepted outcome as it is. Laid out as `Settings` in crates/reduction.
#[repr(C)]
#[derive(Clone, Copy, Debug, PartialEq, Eq)]
pub struct Settings {
    /// A step beyond these is refused with 10.
    pub budget: u32,
    /// In the order of the counts. A use of a rule beyond its ceiling is refused with 13, and a
    /// term that does not come to it is not refused: 0 bars a rule, not a term.
    pub ceilings: Counts,
}

extern "C" {
    fn flatten_no_ceilings(budget: u32) -> Settings;
}

impl Settings {
    /// This budget and no ceilings: each is 4,294,967,295, which a budget of 32 bits never lets a
    /// rule go beyond. With them no refusal is 13.
    pub fn no_ceilings(budget: u32) -> Settings {
        // SAFETY: a number goes in and numbers come out. `Settings` has the fields and the layout of
        // the library's.
        unsafe { flatten_no_ceilings(budget) }
    }
}
