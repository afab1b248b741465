//! A second implementation of the three-phase normalizer (the papers' recipe flattener), on trees.
//! It is the oracle of the tests: plain rather than fast, and written from the papers alone.

pub mod api;
pub mod bundle;
pub mod checks;
pub mod coding;
pub mod deep_stack;
pub mod dialect;
pub mod dropping;
pub mod ends;
pub mod free_inputs;
pub mod listing;
pub mod normal_form;
pub mod reduction;
pub mod rules;
pub mod run;
pub mod search;
pub mod settings;
pub mod subformula;
pub mod substitution;
pub mod tables;
pub mod term;
pub mod typing;
pub mod words;
