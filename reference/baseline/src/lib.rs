//! The normalizer on words alone, without trees: a forward scan, and rewriting in place; and which
//! inputs occur free in a term.
//! It is the baseline for speed; the oracle is the one to compare results with.

mod checks;
mod depths;
mod free_inputs;
mod measure;
mod nodes;
mod normalize;
mod renaming;
mod respond;
mod rewrite;
mod search;
mod typing;
mod usage;
mod walk;

pub use free_inputs::free_inputs;
pub use normalize::{normalize, normalize_and_measure};
pub use respond::respond;
