//! The verified normalizer for small typed functional terms: safe functions over the library that
//! `rt lib` writes in crates/exports. docs/CONTRACTS.md says what each call promises.
//!
//! ```
//! use flatten::{normalize, Buffers, Settings, Tables};
//!
//! // The function that calls d on its argument, applied to c.
//! let tables = Tables { types: &[0, 1 << 60], calls: &[0, 1 << 60], inputs: &[] };
//! let term = [3 << 60, 2 << 60 | 1, 1 << 60 | 1 << 30, 0, 1 << 60];
//! let [mut output, mut first, mut second] = [[0; 100]; 3];
//! let buffers = Buffers { output: &mut output, first: &mut first, second: &mut second };
//! let normal = normalize(tables, &term, Settings::no_ceilings(1000), buffers)?;
//!
//! // let c, d v0
//! assert_eq!(normal.words, [4 << 60, 1 << 60, 1 << 60 | 1 << 30, 0]);
//! # Ok::<(), flatten::Refused>(())
//! ```
//!
//! `free_inputs` says which inputs a term reads:
//!
//! ```
//! use flatten::{free_inputs, Tables};
//!
//! // let v1, v3: inputs 1 and 2; the let is not used.
//! let tables = Tables { types: &[0], calls: &[], inputs: &[0, 0, 0] };
//! let free = free_inputs(tables, &[4 << 60, 1 << 30, 3 << 30])?;
//!
//! assert_eq!(free.marks, [0x6000_0000_0000_0000, 0, 0, 0]);
//! assert_eq!(free.count, 2);
//! # Ok::<(), flatten::Refused>(())
//! ```
//!
//! The calls use the stack of their thread. `respond` and `normalize` use the more, the deeper a
//! term nests. The least that was enough for the deepest term: 924 KiB for `respond`, 668 KiB for
//! `normalize`, 200 KiB for `free_inputs` (tests/depth.rs). A thread's default of 2 MiB is enough. A
//! stack that is too small ends the process.

mod free_inputs;
mod inputs;
mod normalize;
mod refused;
mod respond;
mod settings;

pub use inputs::{free_inputs, FreeInputs};
pub use normalize::{normalize, Buffers, Counts, Normal, Tables};
pub use refused::Refused;
pub use respond::{respond, MOST_WRITTEN};
pub use settings::Settings;
