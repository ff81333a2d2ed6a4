//! A cabinet's files: reading them without harm, and writing them whole or not at all.

pub mod cabinet;
pub mod census;
pub mod checkpoint;
pub mod description;
pub mod draft;
pub mod erasures;
pub mod faults;
pub mod found;
pub mod geometry;
pub mod header;
pub mod interleave;
pub mod label;
pub mod mend;
pub mod output;
pub mod rebuild;
pub mod segment;
pub mod shape;
pub mod share_of_data;
pub mod stripe;
pub mod survey;
pub mod tasks;
pub mod trouble;
pub mod whose;

use crate::disk::{read_part, Disk, Handle};
use crate::failure::Failure;
use std::io;
use std::path::Path;

/// More than a description, a checkpoint or a card holds. Of a longer file only so much and one
/// byte is read, which every length rule refuses.
const MOST_BYTES: usize = 1 << 20;

/// The file, opened for reading; nothing if there is no such file.
pub fn open(disk: &dyn Disk, path: &Path) -> io::Result<Option<Box<dyn Handle>>> {
    match disk.open(path) {
        Err(error) if error.kind() == io::ErrorKind::NotFound => Ok(None),
        other => other.map(Some),
    }
}

/// A file that must be there, opened for reading, and its length.
pub fn open_existing(disk: &dyn Disk, path: &Path) -> Result<(Box<dyn Handle>, u64), Failure> {
    let missing = || Failure::File(format!("{}: no such file", path.display()));
    let file = open(disk, path).map_err(Failure::file(path))?;
    let file = file.ok_or_else(missing)?;
    let length = file.entry().map_err(Failure::file(path))?.length;
    Ok((file, length))
}

/// The bytes of a small file, or nothing if there is no such file.
pub fn read(disk: &dyn Disk, path: &Path) -> io::Result<Option<Vec<u8>>> {
    let file = open(disk, path)?;
    file.map(|file| read_part(&*file, 0, MOST_BYTES + 1))
        .transpose()
}

/// The bytes of a small file that must be there.
pub fn read_existing(disk: &dyn Disk, path: &Path) -> Result<Vec<u8>, Failure> {
    let (file, _) = open_existing(disk, path)?;
    read_part(&*file, 0, MOST_BYTES + 1).map_err(Failure::file(path))
}

/// Removes a file if it is there.
pub fn remove(disk: &dyn Disk, path: &Path) -> Result<(), Failure> {
    match disk.remove(path) {
        Err(error) if error.kind() != io::ErrorKind::NotFound => Err(Failure::file(path)(error)),
        _ => Ok(()),
    }
}
