//! A bundle as readable text, and its term drawn as a tree, before and after normalizing.

pub mod drawing;
pub mod labels;
pub mod layout;
pub mod legend;
pub mod report;
pub mod tables;
pub mod terms;
pub mod types;
pub mod words;
