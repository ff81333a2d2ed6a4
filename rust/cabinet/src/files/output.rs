//! Files that a command writes for people: never over a cabinet's own files.

use super::census::file_name;
use super::description;
use super::draft::{self, Draft};
use super::header::Header;
use super::label::SIZE;
use crate::disk::{folder_of, read_part, Disk};
use crate::failure::Failure;
use gesarumbo::Tray;
use std::path::Path;

/// What the work is called in the name of a small file's work file.
pub const NEW: &str = "new";

/// Writes a small file of the cabinet's own.
pub fn write_own(disk: &dyn Disk, path: &Path, bytes: &[u8]) -> Result<(), Failure> {
    let mut draft = Draft::begin(disk, path, NEW, None)?;
    draft.write(bytes)?;
    draft::publish(vec![draft])
}

/// Writes a small file that a person has named.
pub fn write_named(disk: &dyn Disk, path: &Path, bytes: &[u8]) -> Result<(), Failure> {
    guard(disk, path)?;
    write_own(disk, path, bytes)
}

/// Fails where a file is a tray's or a description, by its name in a cabinet's folder or by what it
/// holds: it is not written over, nor removed.
pub fn guard(disk: &dyn Disk, path: &Path) -> Result<(), Failure> {
    let is_own = is_own_name(path) && is_cabinet(disk, folder_of(path));
    match is_own || holds_a_tray(disk, path) {
        true => Err(Failure::Usage(format!(
            "{}: is among a cabinet's own files; name another place",
            path.display()
        ))),
        false => Ok(()),
    }
}

/// Whether a file has the name of a tray, of a description, or of a work file of these.
fn is_own_name(path: &Path) -> bool {
    let Some(name) = path.file_name().and_then(|name| name.to_str()) else {
        return false;
    };
    let name = name.strip_prefix('.').unwrap_or(name);
    (name.starts_with("tray-") && name.contains(".img")) || name.starts_with(description::NAME)
}

/// Whether a folder has a description or a first tray.
fn is_cabinet(disk: &dyn Disk, folder: &Path) -> bool {
    let first = file_name(Tray::new(0));
    let has = |name: &str| matches!(disk.look(&folder.join(name)), Ok(Some(_)));
    has(description::NAME)
        || has(&first)
        || disk
            .list(folder)
            .is_ok_and(|names| names.iter().any(|name| is_own_name(Path::new(name))))
}

/// Whether a file begins as a tray's does, of either format.
fn holds_a_tray(disk: &dyn Disk, path: &Path) -> bool {
    let start = disk.open(path).and_then(|file| read_part(&*file, 0, SIZE));
    start.is_ok_and(|start| {
        let is_header = |header: Header| header.image_size().is_some() && header.is_whole();
        start.starts_with(b"cabinet format 2\n") || Header::of(&start).is_some_and(is_header)
    })
}
