//! The table of commands: one entry each, one file each.

use crate::disk::Disk;
use crate::failure::{Failure, Outcome};
use crate::terminal::arguments::{Arguments, Setting};
use crate::terminal::help;
use crate::terminal::report;
use crate::terminal::screen::Screen;
use std::ffi::{OsStr, OsString};

mod card;
mod choose;
mod completion;
mod demo;
mod fix;
mod get;
mod inspect;
mod manual;
mod margin;
mod plan;
mod racks_of_four;
mod read;
pub mod recover;
mod repair;
mod replace;
mod scrub;
mod share;
mod sixteen;
mod stale_rack;
mod status;
mod store;
mod test;

/// A command: what it is called, what it says of itself, the settings it knows and what it does.
pub struct Command {
    pub name: &'static str,
    /// What it does, in a few words.
    pub summary: &'static str,
    /// The whole help text.
    pub help: &'static str,
    pub settings: &'static [Setting],
    pub run: fn(&Arguments, &dyn Disk, &mut Screen) -> Result<Outcome, Failure>,
}

impl Command {
    /// The settings it knows, with those of every command that reports.
    pub fn all_settings(&self) -> Vec<Setting> {
        let mut all = self.settings.to_vec();
        if report::REPORTING.contains(&self.name) {
            all.push(report::JSON);
        }
        if report::can_be_quiet(self.name) {
            all.push(report::QUIET);
        }
        all
    }
}

/// All commands, in the order in which help lists them.
pub const COMMANDS: &[Command] = &[
    demo::COMMAND,
    status::COMMAND,
    fix::COMMAND,
    replace::COMMAND,
    choose::COMMAND,
    plan::COMMAND,
    store::COMMAND,
    get::COMMAND,
    test::COMMAND,
    scrub::COMMAND,
    recover::COMMAND,
    share::COMMAND,
    repair::COMMAND,
    card::COMMAND,
    read::COMMAND,
    margin::COMMAND,
    inspect::COMMAND,
    sixteen::COMMAND,
    manual::COMMAND,
    completion::COMMAND,
];

/// Does what a command line asks for.
pub fn run(line: &[OsString], disk: &dyn Disk, screen: &mut Screen) -> Result<Outcome, Failure> {
    let Some((name, rest)) = line.split_first() else {
        help::print_all(screen);
        return Err(Failure::Usage("name a command".to_string()));
    };
    match (name.to_str(), rest) {
        (Some("--version" | "version"), _) => screen.line(help::VERSION),
        (Some("--help" | "-h"), _) | (Some("help"), []) => help::print_all(screen),
        (Some("help"), [command, ..]) => help::print(find(command)?, screen),
        _ => return run_one(find(name)?, rest, disk, screen),
    }
    Ok(Outcome::Done)
}

fn run_one(
    command: &Command,
    rest: &[OsString],
    disk: &dyn Disk,
    screen: &mut Screen,
) -> Result<Outcome, Failure> {
    let settings = || rest.iter().take_while(|word| *word != "--");
    if settings().any(|word| word == "--help" || word == "-h") {
        help::print(command, screen);
        return Ok(Outcome::Done);
    }
    let known = command.all_settings();
    let is_asked = |asked: Setting| {
        let is_known = known.iter().any(|known| known.name == asked.name);
        is_known && settings().any(|word| word == asked.name)
    };
    if is_asked(report::JSON) {
        screen.begin_report();
    }
    if is_asked(report::QUIET) {
        screen.be_quiet();
    }
    let see = |failure| match failure {
        Failure::Usage(words) => Failure::Usage(format!(
            "{0}: {words} (see: cabinet help {0})",
            command.name
        )),
        other => other,
    };
    let ended = Arguments::parse(rest, &known)
        .and_then(|arguments| (command.run)(&arguments, disk, screen))
        .map_err(see);
    screen.end_report(report::head(command.name, &ended));
    ended
}

fn find(name: &OsStr) -> Result<&'static Command, Failure> {
    let unknown = || {
        Failure::Usage(format!(
            "no command '{}' (see: cabinet help)",
            name.to_string_lossy()
        ))
    };
    COMMANDS
        .iter()
        .find(|command| name == command.name)
        .ok_or_else(unknown)
}
