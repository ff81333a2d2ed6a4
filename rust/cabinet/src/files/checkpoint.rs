//! A checkpoint: a small file from which a cut repair, scrub or recovery goes on.
//!
//! Its first line is the task, which names cabinet, trays and all else that its calls must have in
//! common. The second says which stripe is under work, how far it is, from which symbols the last
//! stripe was worked on (where these are others now, the cabinet is another), and the checksum of
//! all the rest. What the task has found or made so far follows.

use super::draft::work_name;
use super::output::{self, NEW};
use crate::disk::Disk;
use crate::failure::Failure;
use crate::files;
use gesarumbo::checksum;
use std::path::Path;

/// How far a task is.
#[derive(PartialEq, Eq, Debug)]
pub struct Checkpoint {
    pub task: String,
    /// The stripe under work; all before it are done.
    pub stripe: u32,
    /// Groups or layers done of this stripe.
    pub step: u64,
    /// The checksum of the symbols that the last stripe was worked on from.
    pub over: u64,
    /// The task's own part.
    pub rest: Vec<u8>,
}

impl Checkpoint {
    /// The last stripe that was worked on: the one under work, if something of it is done, else the
    /// one before.
    pub fn last(&self) -> u32 {
        match self.step {
            0 => self.stripe.saturating_sub(1),
            _ => self.stripe,
        }
    }

    /// The checkpoint in a file, or nothing if there is no such file. One that cannot be read, or is
    /// not of this task, is the failure given.
    pub fn read(
        disk: &dyn Disk,
        path: &Path,
        is_of: impl FnOnce(&str) -> bool,
        foreign: impl FnOnce(&Path) -> Failure,
    ) -> Result<Option<Checkpoint>, Failure> {
        let Some(bytes) = files::read(disk, path).map_err(Failure::file(path))? else {
            return Ok(None);
        };
        let checkpoint = Checkpoint::parse(&bytes).filter(|found| is_of(&found.task));
        checkpoint.map(Some).ok_or_else(|| foreign(path))
    }

    fn parse(bytes: &[u8]) -> Option<Checkpoint> {
        let mut parts = bytes.splitn(3, |byte| *byte == b'\n');
        let mut line = || str::from_utf8(parts.next()?).ok();
        let (task, place) = (line()?.to_string(), line()?);
        let words: Vec<&str> = place.split(' ').collect();
        let ["stripe", stripe, "step", step, "over", over, "check", _] = words[..] else {
            return None;
        };
        let found = Checkpoint {
            task,
            stripe: stripe.parse().ok()?,
            step: step.parse().ok()?,
            over: u64::from_str_radix(over, 16).ok()?,
            rest: parts.next()?.to_vec(),
        };
        (found.bytes() == bytes).then_some(found)
    }

    fn bytes(&self) -> Vec<u8> {
        let (task, stripe, step, over) = (&self.task, self.stripe, self.step, self.over);
        let lines = format!("{task}\nstripe {stripe} step {step} over {over:016x}");
        let check = checksum(checksum(0, lines.as_bytes()), &self.rest);
        [
            format!("{lines} check {check:016x}\n").as_bytes(),
            &self.rest,
        ]
        .concat()
    }

    /// Writes the file.
    pub fn write(&self, disk: &dyn Disk, path: &Path) -> Result<(), Failure> {
        output::write_own(disk, path, &self.bytes())
    }
}

/// Removes a checkpoint, and what a command that was cut while it wrote one has left.
pub fn remove(disk: &dyn Disk, path: &Path) -> Result<(), Failure> {
    files::remove(disk, &work_name(path, NEW)?)?;
    files::remove(disk, path)
}

/// Fails where a file that a person has named for a checkpoint is something else: it would be written
/// over, and removed at the end.
pub fn guard(disk: &dyn Disk, path: &Path) -> Result<(), Failure> {
    output::guard(disk, path)?;
    let found = files::read(disk, path).map_err(Failure::file(path))?;
    let begins = |bytes: &Vec<u8>| {
        let tasks: [&[u8]; 4] = [b"repair of ", b"scrub of ", b"recovery of ", b""];
        tasks[..3].iter().any(|task| bytes.starts_with(task)) || bytes.is_empty()
    };
    match found.is_none_or(|bytes| begins(&bytes)) {
        true => Ok(()),
        false => Err(Failure::Contents(format!(
            "{}: is no checkpoint, and is left as it is",
            path.display()
        ))),
    }
}

/// What a checkpoint may be behind: so many bytes of codewords are done again after a cut.
pub const MOST_UNSAVED: u64 = 8 << 20;

#[cfg(test)]
mod tests {
    use super::Checkpoint;

    fn checkpoint() -> Checkpoint {
        Checkpoint {
            task: "repair of tray 4".to_string(),
            stripe: 2,
            step: 5,
            over: 0xBEEF,
            rest: b"\n\x00\xff".to_vec(),
        }
    }

    #[test]
    fn a_checkpoint_is_read_as_it_is_written() {
        let bytes = checkpoint().bytes();
        let start = b"repair of tray 4\nstripe 2 step 5 over 000000000000beef check ";
        assert!(bytes.starts_with(start));
        assert_eq!(Checkpoint::parse(&bytes), Some(checkpoint()));
    }

    #[test]
    fn what_is_cut_or_changed_is_no_checkpoint() {
        let bytes = checkpoint().bytes();
        for at in 0..bytes.len() {
            assert_eq!(Checkpoint::parse(&bytes[..at]), None, "cut at {at}");
            for bit in 0..8 {
                let mut other = bytes.clone();
                other[at] ^= 1 << bit;
                assert_eq!(Checkpoint::parse(&other), None, "byte {at}, bit {bit}");
            }
        }
    }
}
