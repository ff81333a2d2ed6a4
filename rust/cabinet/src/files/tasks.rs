//! The names of files that tasks which were cut leave in a cabinet's folder.

use crate::commands::recover;

/// A name without what a small file has before it gets its own.
pub fn bare(name: &str) -> &str {
    name.trim_start_matches('.').trim_end_matches(".new")
}

/// Whether a name is of a checkpoint or work file of a repair or recovery.
pub fn is_of_rebuild(name: &str) -> bool {
    let name = bare(name);
    let kept = [".spare", ".img.repair", ".img.recover"];
    let kept = kept.iter().any(|end| name.ends_with(end));
    (name.starts_with("tray-") && kept) || name == recover::NAME
}
