//! `cabinet fix`: everything that is broken, in one line.

use super::Command;
use crate::disk::Disk;
use crate::failure::{Failure, Outcome};
use crate::files::description;
use crate::fixing::fix;
use crate::terminal::arguments::Arguments;
use crate::terminal::screen::Screen;
use std::path::Path;

pub const COMMAND: Command = Command {
    name: "fix",
    summary: "bring back everything that is broken, by the least traffic",
    help: HELP,
    settings: &description::SETTINGS,
    run,
};

const HELP: &str = "\
cabinet fix DIR

Brings back every tray of DIR that is absent, damaged, refused, of another place
or generation, or whose label cannot be read. Where the racks with broken trays
leave d others that are sound, and shares are less than the k trays that a
recovery reads, the trays are repaired by shares, rack after rack (see cabinet
repair); else all are recovered from the trays that are left (see cabinet
recover). A repair or recovery that was cut goes on where it ended. Then all
trays are tested; what shares did not put right, and what only the test finds,
a recovery puts right, and the test is made once more. At the end what tasks
that were cut have left is cleared away, cabinet.txt is written anew if it is
not as the labels say (17), and a record of the test is kept as by a scrub.

It ends with 0 where all trays are there and meet all checks, with 17 where
trays that were there held something wrong, which is named, and with 16 where
something could not be tested. A tray that this command may not read is not
taken for damage (74). What cannot be put right is refused (5, 8) or named (65),
and no tray is written by that step; those of the steps before stay.
";

fn run(arguments: &Arguments, disk: &dyn Disk, screen: &mut Screen) -> Result<Outcome, Failure> {
    let [folder] = arguments.words(["DIR"])?;
    fix(
        disk,
        Path::new(folder),
        arguments,
        (Vec::new(), false),
        screen,
    )
}
