//! A file under a work name beside its own, until it is whole.
//!
//! The work name is always the same, so that a command that goes on or begins anew finds what a cut
//! one left. A work file is always a new file: what stood under its name, a hard link of another file
//! perhaps, is never written. A lock, which the system drops with the process, keeps two commands
//! from one file.

use crate::disk::{folder_of, Disk, Handle, Kind};
use crate::failure::Failure;
use std::ffi::OsString;
use std::io;
use std::path::{Path, PathBuf};

/// A file that is being written. If it is dropped before it is published, the work file is removed,
/// unless it is to stay.
pub struct Draft<'d> {
    disk: &'d dyn Disk,
    path: PathBuf,
    work: PathBuf,
    file: Box<dyn Handle>,
    /// Where the buffer's bytes belong.
    at: u64,
    buffer: Vec<u8>,
    /// Whether the work file outlives the command.
    pub stays: bool,
}

/// Bytes that are written at once.
const AT_ONCE: usize = 1 << 16;

impl<'d> Draft<'d> {
    /// A file that begins anew, whatever the work file holds; `task` is what the work is called. It
    /// gets the mode of the file it will replace, or else this one.
    pub fn begin(
        disk: &'d dyn Disk,
        path: &Path,
        task: &str,
        mode: Option<u32>,
    ) -> Result<Draft<'d>, Failure> {
        let work = work_name(path, task)?;
        let replaced = replaceable(disk, path)?;
        clear(disk, path, &work)?;
        let file = match disk.create(&work) {
            Err(error) if error.kind() == io::ErrorKind::AlreadyExists => return Err(busy(path)),
            other => other.map_err(Failure::file(path))?,
        };
        let draft = Draft::of(disk, path, work, file, 0)?;
        if let Some(mode) = replaced.or(mode) {
            draft.file.set_mode(mode).map_err(Failure::file(path))?;
        }
        Ok(draft)
    }

    /// A file that goes on after so many bytes; nothing if the work file has not as many, or is no
    /// file of its own.
    pub fn go_on(
        disk: &'d dyn Disk,
        path: &Path,
        task: &str,
        written: u64,
    ) -> Result<Option<Draft<'d>>, Failure> {
        let work = work_name(path, task)?;
        replaceable(disk, path)?;
        match disk.look(&work).map_err(Failure::file(path))? {
            Some(entry)
                if entry.kind == Kind::File && entry.links == 1 && entry.length >= written => {}
            _ => return Ok(None),
        }
        let file = disk.change(&work).map_err(Failure::file(path))?;
        let mut draft = Draft::of(disk, path, work, file, written)?;
        draft.stays = true;
        draft
            .file
            .set_length(written)
            .map_err(Failure::file(path))?;
        Ok(Some(draft))
    }

    fn of(
        disk: &'d dyn Disk,
        path: &Path,
        work: PathBuf,
        file: Box<dyn Handle>,
        at: u64,
    ) -> Result<Draft<'d>, Failure> {
        let locked = file.try_lock().map_err(Failure::file(path))?;
        if !locked || !is_still_at(disk, &work, &*file) {
            return Err(busy(path));
        }
        Ok(Draft {
            disk,
            path: path.to_path_buf(),
            work,
            file,
            at,
            buffer: Vec::new(),
            stays: false,
        })
    }

    pub fn write(&mut self, bytes: &[u8]) -> Result<(), Failure> {
        self.buffer.extend_from_slice(bytes);
        match self.buffer.len() >= AT_ONCE {
            true => self.flush(),
            false => Ok(()),
        }
    }

    /// Writes over the first bytes of the file.
    pub fn write_start(&mut self, bytes: &[u8]) -> Result<(), Failure> {
        self.flush()?;
        self.file
            .write_at(0, bytes)
            .map_err(Failure::file(&self.path))
    }

    /// Writes what is still held back.
    pub fn flush(&mut self) -> Result<(), Failure> {
        if !self.buffer.is_empty() {
            self.file
                .write_at(self.at, &self.buffer)
                .map_err(Failure::file(&self.path))?;
            self.at += self.buffer.len() as u64;
            self.buffer.clear();
        }
        Ok(())
    }

    /// Brings all that is written onto the disk.
    pub fn sync(&mut self) -> Result<(), Failure> {
        self.flush()?;
        self.file.sync().map_err(Failure::file(&self.path))
    }

    /// Reads what is written, from a place on.
    pub fn read_at(&self, at: u64, out: &mut [u8]) -> Result<usize, Failure> {
        self.file
            .read_at(at, out)
            .map_err(Failure::file(&self.path))
    }
}

fn busy(path: &Path) -> Failure {
    Failure::File(format!("{}: another command is writing it", path.display()))
}

/// Removes what a cut command left under a work name, unless a command is at it.
fn clear(disk: &dyn Disk, path: &Path, work: &Path) -> Result<(), Failure> {
    let Some(entry) = disk.look(work).map_err(Failure::file(path))? else {
        return Ok(());
    };
    if entry.kind != Kind::File {
        return Err(not_regular(work));
    }
    // One that may not be opened is no other command's that this user can harm.
    if let Ok(old) = disk.open(work) {
        let locked = entry.links > 1 || old.try_lock().map_err(Failure::file(path))?;
        if !locked || !is_still_at(disk, work, &*old) {
            return Err(busy(path));
        }
    }
    disk.remove(work).map_err(Failure::file(path))
}

/// Whether the file still has this name, which the command that had the lock may have changed.
fn is_still_at(disk: &dyn Disk, work: &Path, file: &dyn Handle) -> bool {
    match (disk.look(work), file.entry()) {
        (Ok(Some(there)), Ok(here)) => there.identity == here.identity,
        _ => false,
    }
}

impl Drop for Draft<'_> {
    fn drop(&mut self) {
        if !self.stays {
            // It may have got its own name already.
            let _ = self.disk.remove(&self.work);
        }
    }
}

/// Brings the files and their work names onto the disk.
pub fn settle(drafts: &mut [Draft]) -> Result<(), Failure> {
    drafts.iter_mut().try_for_each(Draft::sync)?;
    match drafts.first() {
        Some(draft) => sync_folder(draft.disk, folder_of(&draft.path)),
        None => Ok(()),
    }
}

/// Gives the files their own names, in their order, once all are on the disk: up to there a failure
/// leaves all of them as they were.
pub fn publish(mut drafts: Vec<Draft>) -> Result<(), Failure> {
    drafts.iter_mut().try_for_each(Draft::sync)?;
    rename(drafts)
}

/// Gives files that are on the disk their own names, in their order, and brings these onto the disk.
pub fn rename(mut drafts: Vec<Draft>) -> Result<(), Failure> {
    drafts.iter_mut().for_each(|draft| draft.stays = true);
    for draft in &drafts {
        if !is_still_at(draft.disk, &draft.work, &*draft.file) {
            return Err(busy(&draft.path));
        }
        draft
            .disk
            .rename(&draft.work, &draft.path)
            .map_err(Failure::file(&draft.path))?;
    }
    match drafts.last() {
        Some(draft) => sync_folder(draft.disk, folder_of(&draft.path)),
        None => Ok(()),
    }
}

/// Brings the names of a folder onto the disk.
pub fn sync_folder(disk: &dyn Disk, folder: &Path) -> Result<(), Failure> {
    disk.sync_folder(folder).map_err(Failure::file(folder))
}

/// The name beside the file's own.
pub fn work_name(path: &Path, task: &str) -> Result<PathBuf, Failure> {
    let Some(name) = path.file_name() else {
        return Err(Failure::File(format!("{}: no file name", path.display())));
    };
    let mut work = OsString::from(".");
    work.push(name);
    work.push(format!(".{task}"));
    Ok(path.with_file_name(work))
}

/// The mode of the file that is there. A link, folder or device is never replaced by a file.
fn replaceable(disk: &dyn Disk, path: &Path) -> Result<Option<u32>, Failure> {
    match disk.look(path).map_err(Failure::file(path))? {
        Some(entry) if entry.kind != Kind::File => Err(not_regular(path)),
        entry => Ok(entry.map(|entry| entry.mode)),
    }
}

fn not_regular(path: &Path) -> Failure {
    Failure::File(format!("{}: not a regular file", path.display()))
}
