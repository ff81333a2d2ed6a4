//! `cabinet replace`: trays that were exchanged, written anew.

use super::Command;
use crate::disk::Disk;
use crate::failure::{Failure, Outcome};
use crate::files::description;
use crate::files::mend::union;
use crate::fixing::fix;
use crate::terminal::arguments::{list, Arguments, Setting};
use crate::terminal::screen::Screen;
use gesarumbo::Tray;
use std::path::Path;

const INSIST: Setting = Setting::plain(
    "--insist",
    "write them anew though nothing is left to test the others by",
);

pub const COMMAND: Command = Command {
    name: "replace",
    summary: "write trays that were exchanged, by the least traffic",
    help: HELP,
    settings: &[
        INSIST,
        description::LAYOUT,
        description::VOLUME,
        description::FIELD,
        description::STRIPES,
    ],
    run,
};

const HELP: &str = "\
cabinet replace DIR TRAY,.. [--insist]

Writes the files of these trays anew, whatever stands at their places: nothing,
a reset tray, one of another cabinet or an old one. As cabinet fix does, it
takes shares where d other racks are sound and these are the least traffic, goes
on where it was cut, and tests all trays at the end. Where shares do not do, a
recovery brings back these trays and all others that are broken; else others
stay as they are: missing ones are named (16), wrong ones too (65).
";

fn run(arguments: &Arguments, disk: &dyn Disk, screen: &mut Screen) -> Result<Outcome, Failure> {
    let [folder, named] = arguments.words(["DIR", "TRAY,.."])?;
    let named: Vec<Tray> = list("TRAY", named)?.into_iter().map(Tray::new).collect();
    if named.is_empty() {
        return Err(Failure::Usage("name a tray or more".to_string()));
    }
    let named = (union(&named, &[]), arguments.has(INSIST));
    fix(disk, Path::new(folder), arguments, named, screen)
}
