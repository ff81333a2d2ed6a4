//! `cabinet test`: whether a cabinet's trays are codewords.

use super::Command;
use crate::code::field::in_field;
use crate::code::symbol::Symbol;
use crate::disk::Disk;
use crate::failure::{Failure, Outcome};
use crate::files::cabinet::Cabinet;
use crate::files::description;
use crate::scrub::verdict::conclude;
use crate::scrub::{self, Scrub};
use crate::terminal::arguments::Arguments;
use crate::terminal::screen::Screen;

pub const COMMAND: Command = Command {
    name: "test",
    summary: "test whether all trays fit together, and name those that do not",
    help: HELP,
    settings: &description::SETTINGS_AND_JOBS,
    run,
};

const HELP: &str = "\
cabinet test DIR

Tests whether the trays of DIR meet every parity check, in every stripe, and
have the checksums that were written. Trays that are missing or cannot be used
are named and done without: the others are tested by the checks that are left,
and the command ends with status 16. Bad layers are an answer, with exit status
65: the trays that are wrong are named with their stripes, wherever code and
checksums can tell.
";

fn run(arguments: &Arguments, disk: &dyn Disk, screen: &mut Screen) -> Result<Outcome, Failure> {
    let [folder] = arguments.words(["DIR"])?;
    let cabinet = Cabinet::find(disk, folder, arguments)?;
    in_field!(cabinet.description.field, test(&cabinet, screen))
}

/// A scrub of all layers that leaves no checkpoint.
fn test<S: Symbol>(cabinet: &Cabinet, screen: &mut Screen) -> Result<Outcome, Failure> {
    let mut scrub = Scrub::begin(cabinet, cabinet.file(scrub::NAME));
    scrub.work_quietly::<S>(screen)?;
    conclude(&scrub, cabinet, screen)
}
