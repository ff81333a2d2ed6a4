//! `cabinet`: the service command over the proved library.
//!
//! It reads and writes tray image files. The library decides what may be done with them, and a
//! refusal's number is the exit status.

#![forbid(unsafe_code)]

mod code;
mod commands;
mod disk;
mod drawing;
mod failure;
mod files;
mod fixing;
mod jobs;
mod repair;
mod scrub;
#[cfg(test)]
mod simulation;
mod status;
mod storing;
mod terminal;

use disk::system::System;
use std::env;
use std::ffi::OsString;
use std::io::{self, Write};
use std::process::ExitCode;
use terminal::screen::Screen;

fn main() -> ExitCode {
    let line: Vec<OsString> = env::args_os().skip(1).collect();
    let mut screen = Screen::open();
    let ended = commands::run(&line, &System, &mut screen);
    match ended.and_then(|outcome| screen.close().map(|()| outcome)) {
        Ok(outcome) => ExitCode::from(outcome.status()),
        Err(failure) => {
            // Nobody may be reading; the status says it all the same.
            let _ = writeln!(io::stderr(), "cabinet: {failure}");
            ExitCode::from(failure.status())
        }
    }
}
