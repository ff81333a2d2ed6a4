//! The commands' own code over a simulated disk: cut after every call, with every error at every
//! call, and with another command beside it at every call.
//!
//! What is asked of them is one sentence: afterwards every file is as it was or whole, the same line
//! run again finishes, and no output of a command that ended well is wrong.

mod beside;
mod cuts;
mod errors;
mod hostile;
mod places;
mod scenes;

use crate::commands;
use crate::disk::simulated::Simulated;
use crate::terminal::screen::Screen;
use std::ffi::OsString;

/// How a line ended, and what it printed.
#[derive(Debug)]
pub struct Ended {
    pub status: u8,
    pub out: String,
    pub message: String,
}

/// Runs a line over a disk.
pub fn run(disk: &Simulated, line: &str) -> Ended {
    let words: Vec<OsString> = line.split_whitespace().map(OsString::from).collect();
    let mut screen = Screen::silent();
    let ended = commands::run(&words, disk, &mut screen);
    let out = screen.kept.take().unwrap_or_default();
    match ended {
        Ok(outcome) => Ended {
            status: outcome.status(),
            out,
            message: String::new(),
        },
        Err(failure) => Ended {
            status: failure.status(),
            out,
            message: failure.to_string(),
        },
    }
}

/// Runs a line that must be done.
pub fn done(disk: &Simulated, line: &str) -> String {
    let ended = run(disk, line);
    assert_eq!(ended.status, 0, "{line}: {ended:?}");
    ended.out
}

/// Bytes that repeat only after a long while.
pub fn data(length: usize) -> Vec<u8> {
    (0..length)
        .map(|place| (place * 167 + place * place / 7) as u8)
        .collect()
}

/// Whether a status says that the line's work was done.
pub fn is_done(status: u8) -> bool {
    [0, 16, 17].contains(&status)
}
