//! What `normalize` and `free_inputs` answer where they refuse.

use crate::Counts;
use std::error::Error;
use std::fmt;

/// A refusal.
#[derive(Clone, Copy, Debug, PartialEq, Eq)]
pub struct Refused {
    /// 1 to 9 for a check; by `normalize` also 10 for the budget, 11 for the capacity and
    /// 13 for a ceiling.
    pub number: u32,
    /// The steps taken until then: all zero for a check.
    pub counts: Counts,
}

impl Refused {
    /// The reason, in words.
    pub fn reason(&self) -> &'static str {
        match self.number {
            1 => "a table or the term is too long, or the term is empty",
            2 => "a type word is malformed",
            3 => "a type word is duplicated",
            4 => "a call word is malformed",
            5 => "an input's type is unknown",
            6 => "a term word is malformed",
            7 => "the term's words end early or are left over",
            8 => "a variable names no binder and no input",
            9 => "the term is not well typed",
            10 => "a rule fits and the budget is used up",
            11 => "the term, or the next one, is longer than the capacity",
            _ => "a rule fits and its ceiling is met",
        }
    }
}

impl fmt::Display for Refused {
    fn fmt(&self, f: &mut fmt::Formatter<'_>) -> fmt::Result {
        write!(f, "refused with {}: {}", self.number, self.reason())
    }
}

impl Error for Refused {}
