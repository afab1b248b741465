//! The files of the shipped examples: bundle, listing, texts and drawings.

use crate::generate::examples::{examples, Example};
use crate::show::report::show;
use oracle::listing::respond;

/// A file and what stands in it.
pub struct File {
    /// Its place in the repository.
    pub path: String,
    pub contents: Vec<u8>,
}

/// All files of all examples; always the same.
pub fn files() -> Vec<File> {
    examples().iter().flat_map(files_of).collect()
}

fn files_of(example: &Example) -> Vec<File> {
    let name = example.name;
    let bundle = example.sample.bundle();
    let listing = respond(&bundle);
    let mut files = Vec::new();
    let mut add = |path: String, contents: Vec<u8>| files.push(File { path, contents });
    if let Ok(shown) = show(&bundle, example.legend) {
        let (before, after) = shown.drawings();
        add(format!("examples/{name}.txt"), shown.text().into_bytes());
        add(format!("examples/{name}.words"), shown.words().into_bytes());
        add(
            format!("docs/pictures/{name}-before.svg"),
            before.into_bytes(),
        );
        if let Some(after) = after {
            add(
                format!("docs/pictures/{name}-after.svg"),
                after.into_bytes(),
            );
        }
    }
    add(format!("examples/{name}.bundle"), bundle);
    add(format!("examples/{name}.listing"), listing);
    files
}
