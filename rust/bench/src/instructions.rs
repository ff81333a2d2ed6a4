//! Instructions of one call, counted by valgrind over this program itself.

use crate::options::{layout_words, BATCH, COUNT, FIELD};
use gesarumbo::Layout;
use std::ffi::OsStr;
use std::process::Command;

/// Counts a call by a version; an error says what is missing.
pub fn of(field: u32, layout: Layout, call: &str, version: &str) -> Result<u64, String> {
    let field = field.to_string();
    let words = [COUNT, call, version, "--rounds", "1", FIELD, &field].map(String::from);
    counted(&[&words[..], &layout_words(layout)].concat())
}

/// Counts a call for many codewords, or for one, by a version.
pub fn of_batch(field: u32, layout: Layout, call: &str, version: &str) -> Result<u64, String> {
    let field = field.to_string();
    let words = [BATCH, COUNT, call, version, FIELD, &field].map(String::from);
    counted(&[&words[..], &layout_words(layout)].concat())
}

/// Counts what this program does when it is asked by these words.
pub fn counted<W: AsRef<OsStr>>(words: &[W]) -> Result<u64, String> {
    let program = std::env::current_exe().map_err(|error| error.to_string())?;
    let output = Command::new("valgrind")
        .args(["--tool=callgrind", "--callgrind-out-file=/dev/null"])
        .arg("--toggle-collect=*counted*")
        .arg(program)
        .args(words)
        .output()
        .map_err(|error| format!("valgrind: {error}"))?;
    let said = String::from_utf8_lossy(&output.stderr);
    let counted = collected(&said).filter(|_| output.status.success());
    counted.ok_or(format!("valgrind counted nothing:\n{said}"))
}

/// The number after "Collected :".
fn collected(said: &str) -> Option<u64> {
    let line = said.lines().find(|line| line.contains("Collected :"))?;
    line.rsplit(' ').next()?.parse().ok()
}
