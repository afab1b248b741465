//! What drop may take away: no call that acts, and nothing in which such a call may hide.

use crate::tables::Tables;
use crate::term::Term;

/// Whether drop fits a let with this bound part, provided that its variable is not used. Over a table
/// with an acting call, the function that is applied may make one, whether or not the term names it.
pub fn may_be_dropped(tables: &Tables, bound: &Term) -> bool {
    match bound {
        Term::Call(number, _) => !tables.signature_at(*number).acts,
        Term::Application(..) => !tables.has_acting_call(),
        _ => !bound.is_value(),
    }
}
