//! The check of the throw-away repository: `rt check` of the further crate, which builds the copied ones first.

use std::io;
use std::path::Path;
use std::process::Command;
use std::time::Instant;

const LINES_SHOWN: usize = 12;

/// Runs the check; answers the end of what it prints with the seconds it took, and whether all is
/// proved.
pub fn run_check(folder: &Path) -> io::Result<(String, bool)> {
    let start = Instant::now();
    let output = Command::new("rt")
        .arg("check")
        .current_dir(folder.join("crates/crosscheck"))
        .output()
        .map_err(|error| io::Error::new(error.kind(), format!("rt check: {error}")))?;
    let seconds = start.elapsed().as_secs();
    let mut text = String::from_utf8_lossy(&output.stdout).into_owned();
    text += &String::from_utf8_lossy(&output.stderr);
    let lines: Vec<&str> = text.lines().collect();
    let shown = &lines[lines.len().saturating_sub(LINES_SHOWN)..];
    let is_proved = output.status.success();
    let verdict = if is_proved { "proved" } else { "NOT PROVED" };
    let report = format!("{}\nrt check: {verdict}, {seconds} s\n", shown.join("\n"));
    Ok((report, is_proved))
}
