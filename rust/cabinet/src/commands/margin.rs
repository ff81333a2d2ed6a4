//! `cabinet margin`: how many trays more may be lost.

use super::Command;
use crate::code::field::in_field;
use crate::code::symbol::Symbol;
use crate::disk::Disk;
use crate::failure::{Failure, Outcome};
use crate::files::cabinet::Cabinet;
use crate::files::description;
use crate::files::survey::{stripes, Survey};
use crate::status::standing;
use crate::terminal::arguments::Arguments;
use crate::terminal::cabinet_map;
use crate::terminal::report;
use crate::terminal::screen::{Paint, Screen};
use crate::terminal::words::{hanging, trays};
use gesarumbo::{ABSENT, DEMONSTRATION, LIVE};

pub const COMMAND: Command = Command {
    name: "margin",
    summary: "say how many more trays may be lost",
    help: HELP,
    settings: &description::SETTINGS_AND_JOBS,
    run,
};

const HELP: &str = "\
cabinet margin DIR

Draws the cabinet and says its loss margin, the least of its segments. A tray
counts as live in a segment if its header is taken and its checksum is right, as
demonstration if it is refused for that, and else as absent; in the drawing it
is live if it is in every segment. Trays with wrong checksums, with a label that
cannot be read and with a file that is too long are named. A margin below zero
is an answer too (0): the records cannot be recovered.
";

fn run(arguments: &Arguments, disk: &dyn Disk, screen: &mut Screen) -> Result<Outcome, Failure> {
    let [folder] = arguments.words(["DIR"])?;
    let cabinet = Cabinet::find(disk, folder, arguments)?;
    in_field!(cabinet.description.field, margin(&cabinet, screen))
}

fn margin<S: Symbol>(cabinet: &Cabinet, screen: &mut Screen) -> Result<Outcome, Failure> {
    let survey = Survey::of::<S>(cabinet, screen)?;
    cabinet_map::print(&cabinet.numbers, &survey.kinds, screen);
    let count = |state| {
        let kinds = survey.kinds.iter().filter(|kind| kind.state() == state);
        kinds.count()
    };
    let (live, needed) = (count(LIVE), cabinet.numbers.dimension);
    let (reset, absent) = (count(DEMONSTRATION), count(ABSENT));
    screen.line(format!(
        "  {live} live, {reset} demonstration, {absent} absent; {needed} are needed"
    ));
    let place = match (cabinet.description.stripes, live == cabinet.numbers.trays) {
        (1, _) | (_, true) => String::new(),
        _ => format!(" in {}, the first with the least", stripes(&survey.worst)),
    };
    let unlabelled = (cabinet.unlabelled(), "labels that cannot be read");
    let long = (cabinet.too_long(), "files that are too long");
    if !survey.rotten.is_empty() {
        let words = screen.paint(Paint::Bad, "wrong checksums");
        let trays = trays(&survey.rotten);
        screen.line(format!("  {words}: {trays}; cabinet test says where"));
    }
    for (found, words) in [unlabelled, long] {
        if !found.is_empty() {
            let words = screen.paint(Paint::Warning, words);
            let text = format!(
                "{words}: {}; cabinet recover writes them anew",
                trays(&found)
            );
            screen.line(hanging("  ", &text));
        }
    }
    say(survey.margin.into(), &place, screen);
    screen.fact("cabinet", report::cabinet(cabinet));
    screen.fact("trays", standing::json(cabinet, &survey));
    screen.fact("margin", survey.margin);
    screen.fact("least", vec![survey.worst.start, survey.worst.end - 1]);
    Ok(Outcome::Done)
}

/// The margin, and what it means: trays may be lost as long as live ones, which alone hold
/// records, are left over.
fn say(margin: i64, place: &str, screen: &mut Screen) {
    let meaning = match margin {
        ..=-1 => screen.paint(Paint::Bad, &format!("too few live trays by {}", -margin)),
        0 => screen.paint(Paint::Warning, "no tray more may be lost"),
        1 => screen.paint(Paint::Good, "one tray more may be lost"),
        _ => screen.paint(Paint::Good, &format!("any {margin} trays more may be lost")),
    };
    screen.line(format!("  margin {margin}{place}: {meaning}"));
}
