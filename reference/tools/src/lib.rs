//! What is made with the oracle and the baseline: samples, the corpus, the check of the definitions,
//! the benchmark, and bundles in readable form.

pub mod bench;
pub mod corpus;
pub mod definitions;
pub mod examples;
pub mod generate;
pub mod lines;
pub mod random;
pub mod show;
pub mod svg;
pub mod verified;
