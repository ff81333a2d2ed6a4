//! The system's file calls.

use super::{Disk, Entry, Handle, Hold, Kind, Lock};
use std::ffi::OsString;
use std::fs::{self, File, Metadata, OpenOptions, Permissions, TryLockError};
use std::io::{self, Read, Write};
use std::os::unix::fs::{FileExt, MetadataExt, OpenOptionsExt, PermissionsExt};
use std::path::{Path, PathBuf};

/// The system's files.
pub struct System;

/// The system answers with an error where a link would be followed.
const NO_FOLLOW: i32 = 0o400_000;

struct SystemFile(File);

struct SystemLock(#[allow(dead_code)] File);

impl Lock for SystemLock {}

fn entry(metadata: &Metadata) -> Entry {
    let kind = match metadata.file_type() {
        kind if kind.is_file() => Kind::File,
        kind if kind.is_dir() => Kind::Folder,
        _ => Kind::Other,
    };
    Entry {
        kind,
        length: metadata.len(),
        mode: metadata.mode() & 0o7777,
        links: metadata.nlink(),
        identity: (metadata.dev(), metadata.ino()),
    }
}

/// A regular file; a pipe or device might never end.
fn regular(path: &Path) -> io::Result<()> {
    match fs::metadata(path)?.is_file() {
        true => Ok(()),
        false => Err(io::Error::other("not a regular file")),
    }
}

impl Handle for SystemFile {
    fn entry(&self) -> io::Result<Entry> {
        self.0.metadata().map(|metadata| entry(&metadata))
    }

    fn read_at(&self, at: u64, out: &mut [u8]) -> io::Result<usize> {
        let mut read = 0;
        while read < out.len() {
            match self.0.read_at(&mut out[read..], at + read as u64) {
                Ok(0) => break,
                Ok(more) => read += more,
                Err(error) if error.kind() == io::ErrorKind::Interrupted => {}
                Err(error) => return Err(error),
            }
        }
        Ok(read)
    }

    fn write_at(&self, at: u64, bytes: &[u8]) -> io::Result<()> {
        self.0.write_all_at(bytes, at)
    }

    fn set_length(&self, length: u64) -> io::Result<()> {
        self.0.set_len(length)
    }

    fn set_mode(&self, mode: u32) -> io::Result<()> {
        self.0.set_permissions(Permissions::from_mode(mode))
    }

    fn sync(&self) -> io::Result<()> {
        self.0.sync_all()
    }

    fn try_lock(&self) -> io::Result<bool> {
        held(self.0.try_lock())
    }
}

/// Whether a lock was had. Where a file system knows no locks, everyone has it.
fn held(locked: Result<(), TryLockError>) -> io::Result<bool> {
    match locked {
        Ok(()) => Ok(true),
        Err(TryLockError::WouldBlock) => Ok(false),
        Err(TryLockError::Error(error)) if error.kind() == io::ErrorKind::Unsupported => Ok(true),
        Err(TryLockError::Error(error)) => Err(error),
    }
}

impl Disk for System {
    fn look(&self, path: &Path) -> io::Result<Option<Entry>> {
        match fs::symlink_metadata(path) {
            Ok(metadata) => Ok(Some(entry(&metadata))),
            Err(error) if error.kind() == io::ErrorKind::NotFound => Ok(None),
            Err(error) => Err(error),
        }
    }

    fn open(&self, path: &Path) -> io::Result<Box<dyn Handle>> {
        regular(path)?;
        Ok(Box::new(SystemFile(File::open(path)?)))
    }

    fn change(&self, path: &Path) -> io::Result<Box<dyn Handle>> {
        let mut options = OpenOptions::new();
        options.read(true).write(true).custom_flags(NO_FOLLOW);
        Ok(Box::new(SystemFile(options.open(path)?)))
    }

    fn create(&self, path: &Path) -> io::Result<Box<dyn Handle>> {
        let mut options = OpenOptions::new();
        options.read(true).write(true).create_new(true);
        Ok(Box::new(SystemFile(options.open(path)?)))
    }

    fn rename(&self, from: &Path, to: &Path) -> io::Result<()> {
        fs::rename(from, to)
    }

    fn remove(&self, path: &Path) -> io::Result<()> {
        fs::remove_file(path)
    }

    fn make_folder(&self, path: &Path) -> io::Result<()> {
        fs::create_dir_all(path)
    }

    fn remove_folder(&self, path: &Path) -> io::Result<()> {
        fs::remove_dir(path)
    }

    fn list(&self, folder: &Path) -> io::Result<Vec<OsString>> {
        let entries = fs::read_dir(folder)?;
        let names: io::Result<Vec<OsString>> = entries
            .map(|entry| entry.map(|entry| entry.file_name()))
            .collect();
        names.map(|mut names| {
            names.sort();
            names
        })
    }

    fn sync_folder(&self, folder: &Path) -> io::Result<()> {
        File::open(folder)?.sync_all()
    }

    fn lock(&self, folder: &Path, hold: Hold, wait: bool) -> io::Result<Option<Box<dyn Lock>>> {
        let file = File::open(folder)?;
        let had = match (hold, wait) {
            (Hold::Shared, true) => file.lock_shared().map(|()| true),
            (Hold::Exclusive, true) => file.lock().map(|()| true),
            (Hold::Shared, false) => held(file.try_lock_shared()),
            (Hold::Exclusive, false) => held(file.try_lock()),
        };
        Ok(had?.then(|| Box::new(SystemLock(file)) as Box<dyn Lock>))
    }

    fn canonical(&self, folder: &Path) -> io::Result<PathBuf> {
        folder.canonicalize()
    }

    fn input(&self) -> Box<dyn Read> {
        Box::new(io::stdin())
    }

    fn output(&self) -> Box<dyn Write> {
        Box::new(io::stdout())
    }
}
