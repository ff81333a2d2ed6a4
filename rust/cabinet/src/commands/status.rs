//! `cabinet status`: how a cabinet stands, at a glance, and what to type next.

use super::Command;
use crate::code::field::in_field;
use crate::code::symbol::Symbol;
use crate::disk::Disk;
use crate::drawing::{status_page, status_picture};
use crate::failure::{Failure, Outcome};
use crate::files::cabinet::Cabinet;
use crate::files::{description, output};
use crate::status::Status;
use crate::terminal::arguments::{Arguments, Setting};
use crate::terminal::screen::{Paint, Screen};
use crate::terminal::status_map;
use crate::terminal::words::hanging;
use std::path::Path;

const SVG: Setting = Setting::with("--svg", "FILE", "draw it");
const HTML: Setting = Setting::with(
    "--html",
    "FILE",
    "write one page with the picture, the figures and what to do",
);

pub const COMMAND: Command = Command {
    name: "status",
    summary: "say at a glance how a cabinet stands, and what to type next",
    help: HELP,
    settings: &[
        SVG,
        HTML,
        description::LAYOUT,
        description::VOLUME,
        description::FIELD,
        description::STRIPES,
    ],
    run,
};

const HELP: &str = "\
cabinet status DIR [--svg FILE] [--html FILE]

Looks at every tray of DIR and says how each stands:

  live           the headers of all its segments are taken, and their checksums
                 are right
  demonstration  it was reset, and holds no records
  absent         there is no such file
  stale          its label is of another generation or cabinet
  bad            damaged, of another place, layout or volume, with a label that
                 cannot be read or a file that is too long
  closed         this command may not read it

Then the loss margin, the last scrub that came to its end and what it found,
work that was begun and is not at its end, and the line to type next. Parity is
not tested: cabinet test and cabinet scrub do that. Whatever it finds is an
answer (0); for scripts there is --json. The page needs nothing but itself.
";

fn run(arguments: &Arguments, disk: &dyn Disk, screen: &mut Screen) -> Result<Outcome, Failure> {
    let [folder] = arguments.words(["DIR"])?;
    let cabinet = Cabinet::find(disk, folder, arguments)?;
    in_field!(
        cabinet.description.field,
        status(&cabinet, arguments, screen)
    )
}

fn status<S: Symbol>(
    cabinet: &Cabinet,
    arguments: &Arguments,
    screen: &mut Screen,
) -> Result<Outcome, Failure> {
    let status = Status::of::<S>(cabinet)?;
    status.report(screen);
    print(&status, screen);
    for (setting, draw) in [
        (SVG, status_picture::draw as fn(&Status) -> String),
        (HTML, status_page::write),
    ] {
        if let Some(path) = arguments.value(setting).map(Path::new) {
            output::write_named(cabinet.disk, path, draw(&status).as_bytes())?;
            screen.line(format!("  written to {}", path.display()));
        }
    }
    Ok(Outcome::Done)
}

/// The whole on the terminal.
pub fn print(status: &Status, screen: &mut Screen) {
    screen.heading(status.cabinet.description.words());
    status_map::print(status, screen);
    screen.line(format!("  {}", status.counts()));
    let margin = match status.survey.margin {
        ..=-1 => screen.paint(Paint::Bad, &status.margin()),
        0 => screen.paint(Paint::Warning, &status.margin()),
        _ => screen.paint(Paint::Good, &status.margin()),
    };
    screen.line(format!("  margin      {margin}"));
    if !status.has_text {
        screen.line("  cabinet.txt is not as the labels say");
    }
    screen.line(hanging("  last scrub  ", &status.last_scrub()));
    match &status.work[..] {
        [] => screen.line("  open work   none"),
        works => works.iter().for_each(|work| {
            screen.line(hanging("  open work   ", &work.words(status.cabinet)));
        }),
    }
    let next = status.next();
    match &next.line {
        None => screen.line(hanging("  next        ", &next.why)),
        Some(line) => {
            let line = screen.paint(Paint::Strong, line);
            screen.line(format!("  next        {line}"));
            screen.line(hanging("              ", &next.why));
        }
    }
}
