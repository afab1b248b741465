//! The definitions that a proof by computation opens: every one that specs/ marks `unfoldable`.
//!
//! They are read from the copied sources, so that a definition added there is opened too. Of a
//! `mutual` block the first name stands for all.

use std::ffi::OsStr;
use std::fs;
use std::io;
use std::path::{Path, PathBuf};

/// The `use` lines for the definitions, and their names.
pub struct Opened {
    pub uses: String,
    pub names: Vec<String>,
}

/// The unfoldable definitions of some crates.
pub fn opened_definitions(crates: &Path, names: &[&str]) -> io::Result<Opened> {
    let mut opened = Opened {
        uses: String::new(),
        names: Vec::new(),
    };
    for name in names {
        for file in modules(&crates.join(name).join("specs"))? {
            let found = unfoldable_names(&fs::read_to_string(&file)?);
            let Some(module) = file.file_stem().and_then(OsStr::to_str) else {
                continue;
            };
            if !found.is_empty() {
                let list = found.join(", ");
                opened.uses += &format!("use Rattle.{name}.specs.{module}.{{{list}}}\n");
                opened.names.extend(found);
            }
        }
    }
    Ok(opened)
}

/// The antt files of a folder, in order.
fn modules(folder: &Path) -> io::Result<Vec<PathBuf>> {
    let mut files = Vec::new();
    for entry in fs::read_dir(folder)? {
        let file = entry?.path();
        if file.extension() == Some(OsStr::new("antt")) {
            files.push(file);
        }
    }
    files.sort();
    Ok(files)
}

/// The names that a module declares as unfoldable.
pub fn unfoldable_names(text: &str) -> Vec<String> {
    let mut names = Vec::new();
    let mut in_block = false;
    for line in text.lines().map(str::trim_start) {
        if line.starts_with("unfoldable mutual") {
            in_block = true;
            continue;
        }
        let declared = match line.strip_prefix("unfoldable pub ") {
            Some(rest) => Some(rest),
            None if in_block => line.strip_prefix("pub "),
            None => None,
        };
        if let Some((name, _)) = declared.and_then(|rest| rest.split_once(" : ")) {
            names.push(name.to_owned());
            in_block = false;
        }
    }
    names
}
