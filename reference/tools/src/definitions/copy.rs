//! Folders: an empty one to write into, outside another, and copies of whole ones.

use std::fs;
use std::io::{self, Error};
use std::path::Path;

/// Makes a folder, or takes one that is there if it is empty; it must not lie in the other one.
pub fn make_empty_folder_outside(folder: &Path, other: &Path) -> io::Result<()> {
    let refused = |reason: &str| Err(Error::other(format!("{} {reason}", folder.display())));
    fs::create_dir_all(folder)?;
    if fs::read_dir(folder)?.next().is_some() {
        return refused("is not empty");
    }
    if fs::canonicalize(folder)?.starts_with(fs::canonicalize(other)?) {
        return refused("lies in the repository");
    }
    Ok(())
}

/// What a check writes into a crate's folder.
const WRITTEN_BY_A_CHECK: &str = "out";

/// Copies a folder with all that is in it, but for what a check has written.
pub fn copy_folder(from: &Path, to: &Path) -> io::Result<()> {
    fs::create_dir_all(to)?;
    for entry in fs::read_dir(from)? {
        let entry = entry?;
        if entry.file_name() == WRITTEN_BY_A_CHECK {
            continue;
        }
        let target = to.join(entry.file_name());
        if entry.file_type()?.is_dir() {
            copy_folder(&entry.path(), &target)?;
        } else {
            fs::copy(entry.path(), target)?;
        }
    }
    Ok(())
}
