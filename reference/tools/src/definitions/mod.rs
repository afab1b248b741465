//! The definitions checked against this implementation by computation in the prover.
//!
//! `definitions REPOSITORY DIR SEED COUNT` writes a throw-away repository into DIR: copies of the
//! crates that hold the definitions, and one more crate, `crosscheck`, whose theorems say that the
//! definitions compute what this implementation answers. Each theorem is closed by one `refl`
//! over a table of rows. The rows are the lines of `cases SEED COUNT`, and of `bundles`, `runs`, `inputs`,
//! `ceilings` and `ends` with a fifth, a quarter, a fifth, half and half as many.

pub mod bundles;
pub mod cases;
pub mod ceilings;
pub mod check;
mod copy;
mod crosscheck;
pub mod ends;
mod figures;
pub mod inputs;
pub mod notation;
pub mod opened;
pub mod repository;
pub mod runs;
mod tables;
