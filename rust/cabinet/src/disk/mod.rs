//! The file calls that the command makes, behind one small interface: the system's, and for tests a
//! simulated one that loses what was not synced.

#[cfg(test)]
pub mod simulated;
pub mod system;

use std::ffi::OsString;
use std::io::{self, Read, Write};
use std::path::{Path, PathBuf};

/// What stands under a name, links not followed.
#[derive(Clone, Copy, PartialEq, Eq, Debug)]
pub struct Entry {
    pub kind: Kind,
    pub length: u64,
    /// The permission bits.
    pub mode: u32,
    /// How many names the file has.
    pub links: u64,
    pub identity: Identity,
}

#[derive(Clone, Copy, PartialEq, Eq, Debug)]
pub enum Kind {
    File,
    Folder,
    /// A link, pipe or device.
    Other,
}

/// What tells a file from all others, under whichever name.
pub type Identity = (u64, u64);

/// How a folder is locked: by several readers, or by one writer.
#[derive(Clone, Copy, PartialEq, Eq, Debug)]
pub enum Hold {
    Shared,
    Exclusive,
}

/// A lock, held until it is dropped.
pub trait Lock {}

/// An open file.
pub trait Handle {
    fn entry(&self) -> io::Result<Entry>;
    /// Reads up to so many bytes from a place on; fewer only at the end.
    fn read_at(&self, at: u64, out: &mut [u8]) -> io::Result<usize>;
    /// Writes all bytes from a place on.
    fn write_at(&self, at: u64, bytes: &[u8]) -> io::Result<()>;
    fn set_length(&self, length: u64) -> io::Result<()>;
    fn set_mode(&self, mode: u32) -> io::Result<()>;
    /// Brings what is written onto the disk.
    fn sync(&self) -> io::Result<()>;
    /// Locks the file against other commands; false if one has it.
    fn try_lock(&self) -> io::Result<bool>;
}

/// The calls on names.
pub trait Disk {
    /// What stands under a name, or nothing.
    fn look(&self, path: &Path) -> io::Result<Option<Entry>>;
    /// A file for reading; links are followed.
    fn open(&self, path: &Path) -> io::Result<Box<dyn Handle>>;
    /// A file that is there, for reading and writing; a link is not followed.
    fn change(&self, path: &Path) -> io::Result<Box<dyn Handle>>;
    /// A file that is not there yet.
    fn create(&self, path: &Path) -> io::Result<Box<dyn Handle>>;
    fn rename(&self, from: &Path, to: &Path) -> io::Result<()>;
    fn remove(&self, path: &Path) -> io::Result<()>;
    fn make_folder(&self, path: &Path) -> io::Result<()>;
    fn remove_folder(&self, path: &Path) -> io::Result<()>;
    fn list(&self, folder: &Path) -> io::Result<Vec<OsString>>;
    /// Brings the names of a folder onto the disk.
    fn sync_folder(&self, folder: &Path) -> io::Result<()>;
    /// Locks a folder; nothing if another command has it and it is not to be waited for.
    fn lock(&self, folder: &Path, hold: Hold, wait: bool) -> io::Result<Option<Box<dyn Lock>>>;
    /// The one name of a folder without links.
    fn canonical(&self, folder: &Path) -> io::Result<PathBuf>;
    /// What comes by a pipe.
    fn input(&self) -> Box<dyn Read>;
    /// What goes out by a pipe.
    fn output(&self) -> Box<dyn Write>;
}

/// The name that stands for a pipe.
pub const PIPE: &str = "-";

/// Reads exactly so many bytes from a place on, or as many as there are.
pub fn read_part(file: &dyn Handle, at: u64, length: usize) -> io::Result<Vec<u8>> {
    let mut bytes = vec![0; length];
    let read = file.read_at(at, &mut bytes)?;
    bytes.truncate(read);
    Ok(bytes)
}

/// The folder of a file.
pub fn folder_of(path: &Path) -> &Path {
    match path.parent() {
        Some(parent) if !parent.as_os_str().is_empty() => parent,
        _ => Path::new("."),
    }
}
