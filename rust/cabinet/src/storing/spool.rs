//! Data that come by a pipe: their length and checksum are needed before the first segment is written,
//! so they are kept in a work file of the cabinet's folder until they are stored.

use crate::disk::{folder_of, Disk};
use crate::failure::Failure;
use crate::files::census::STORE;
use crate::files::description::NAME;
use crate::files::draft::{self, Draft};
use gesarumbo::checksum;
use std::io::{self, Read};
use std::path::Path;

/// The file whose work name they are kept under.
pub const INPUT: &str = "input";

/// Only their owner may read them.
const MODE: u32 = 0o600;

/// The data of a pipe, read from their beginning on. The work file goes with it.
pub struct Spool<'d> {
    draft: Draft<'d>,
    at: u64,
    pub length: u64,
    pub checksum: u64,
}

impl<'d> Spool<'d> {
    /// Takes all that comes by a pipe into a folder, which is made if need be; whether it was made is
    /// told too. Without `replace` no cabinet may be there.
    pub fn take(
        disk: &'d dyn Disk,
        folder: &Path,
        replace: bool,
    ) -> Result<(Spool<'d>, bool), Failure> {
        let text = folder.join(NAME);
        if !replace && disk.look(&text).map_err(Failure::file(&text))?.is_some() {
            return Err(super::is_there(folder));
        }
        let is_new = disk.look(folder).map_err(Failure::file(folder))?.is_none();
        if is_new {
            disk.make_folder(folder).map_err(Failure::file(folder))?;
            draft::sync_folder(disk, folder_of(folder))?;
        }
        match Spool::read(disk, folder) {
            Ok(spool) => Ok((spool, is_new)),
            Err(failure) => {
                if is_new {
                    // Nothing is in it, and where it is not empty all the same, it stays.
                    let _ = disk.remove_folder(folder);
                }
                Err(failure)
            }
        }
    }

    fn read(disk: &'d dyn Disk, folder: &Path) -> Result<Spool<'d>, Failure> {
        let draft = Draft::begin(disk, &folder.join(INPUT), STORE, Some(MODE))?;
        let mut spool = Spool {
            draft,
            at: 0,
            length: 0,
            checksum: 0,
        };
        let (mut input, mut room) = (disk.input(), vec![0; 1 << 16]);
        loop {
            let read = match input.read(&mut room) {
                Err(error) if error.kind() == io::ErrorKind::Interrupted => continue,
                read => read.map_err(|error| Failure::File(format!("standard input: {error}")))?,
            };
            if read == 0 {
                break;
            }
            spool.draft.write(&room[..read])?;
            spool.checksum = checksum(spool.checksum, &room[..read]);
            spool.length += read as u64;
        }
        spool.draft.flush()?;
        Ok(spool)
    }
}

impl Read for Spool<'_> {
    fn read(&mut self, out: &mut [u8]) -> io::Result<usize> {
        let read = self.draft.read_at(self.at, out);
        let read = read.map_err(|failure| io::Error::other(failure.to_string()))?;
        self.at += read as u64;
        Ok(read)
    }
}
