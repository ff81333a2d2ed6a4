//! `cabinet manual`: the manual pages.

use super::{find, Command};
use crate::disk::Disk;
use crate::failure::{Failure, Outcome};
use crate::terminal::arguments::Arguments;
use crate::terminal::manual;
use crate::terminal::screen::Screen;

pub const COMMAND: Command = Command {
    name: "manual",
    summary: "print a manual page, for man",
    help: HELP,
    settings: &[],
    run,
};

const HELP: &str = "\
cabinet manual
cabinet manual COMMAND

Prints the manual page of the whole command, cabinet(1), or of one command,
cabinet-COMMAND(1), as man reads it. It is made from what help says:

    cabinet manual repair | man -l -
";

fn run(arguments: &Arguments, _: &dyn Disk, screen: &mut Screen) -> Result<Outcome, Failure> {
    let page = match arguments.words([]) {
        Ok([]) => manual::whole(),
        Err(_) => manual::of(find(arguments.words(["COMMAND"])?[0])?),
    };
    screen.line(page.trim_end());
    Ok(Outcome::Done)
}
