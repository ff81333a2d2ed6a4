//! `cabinet card`: the ready multipliers of one group of a repair.

use super::Command;
use crate::code::field::{in_field, Field, FIELD};
use crate::code::numbers::Numbers;
use crate::code::symbol::Symbol;
use crate::disk::Disk;
use crate::failure::{Failure, Outcome};
use crate::files::output;
use crate::repair::{card, helpers, Repair};
use crate::terminal::arguments::{needed, Arguments, Setting};
use crate::terminal::screen::{Paint, Screen};
use gesarumbo::{Rack, Refusal, Tray};
use std::path::Path;

const LOST: Setting = Setting::with("--lost", "X", "the lost tray");
const HELPERS: Setting = Setting::with(
    "--helpers",
    "a,b,..",
    "d other racks, rising; the first d, if not given",
);
const GROUP: Setting = Setting::with("--group", "G", "the group of the repair");

pub const COMMAND: Command = Command {
    name: "card",
    summary: "print and test cards of ready numbers for a repair",
    help: HELP,
    settings: &[LOST, HELPERS, GROUP, FIELD],
    run,
};

const HELP: &str = "\
cabinet card print B u k d --lost X [--helpers a,b,..] --group G [--field N] OUT
cabinet card test B u k d --lost X [--helpers a,b,..] --group G [--field N] FILE

A card has the ready multipliers of one group of a repair: they turn the symbols
that the d helpers send for the group into the s sums of the lost tray's rack.
It is a text: a line for each sum, with a number for each helper. Tray X stands
for its rack; its place there does not matter.

print    writes the one right card to OUT
test     says whether the card in FILE is right, whoever has printed it; one
         that does not give the sums of every codeword is refused (15)

cabinet repair --card repairs a group by a card. A card is the same for every
stripe.
";

/// What a card is for.
struct Place {
    numbers: Numbers,
    lost: Tray,
    helpers: Vec<Rack>,
    group: u64,
}

fn run(arguments: &Arguments, disk: &dyn Disk, screen: &mut Screen) -> Result<Outcome, Failure> {
    let (action, arguments) = arguments.action()?;
    if !["print", "test"].contains(&action.as_str()) {
        return Err(Failure::Usage("print or test is needed".to_string()));
    }
    let (layout, [file]) = arguments.layout_and(["FILE"])?;
    let field = Field::asked(&arguments)?.unwrap_or_default();
    let lost = Tray::new(needed(LOST, arguments.number(LOST)?)?);
    let helpers = arguments.list(HELPERS)?;
    let helpers = helpers.map(|racks| racks.into_iter().map(Rack::new).collect());
    let group = needed(GROUP, arguments.number(GROUP)?)?;
    let numbers = Numbers::of(layout, field)?;
    let place = Place {
        lost,
        helpers: helpers.unwrap_or_else(|| numbers.first_helpers(&[lost])),
        group,
        numbers,
    };
    let path = Path::new(file);
    match action.as_str() {
        "print" => in_field!(field, print(&place, disk, path, screen)),
        _ => in_field!(field, test(&place, disk, path, screen)),
    }?;
    Ok(Outcome::Done)
}

impl Place {
    /// For `map_err`: what the library refused, and what is known of it.
    fn refused(&self, about: String) -> impl FnOnce(Refusal) -> Failure + '_ {
        move |refusal| {
            let repair = Repair {
                lost: vec![self.lost],
                helpers: self.helpers.clone(),
            };
            let last = self.numbers.groups as u64 - 1;
            let known = match helpers::known(&self.numbers, &repair, refusal) {
                None if refusal == Refusal::Number && self.group > last => {
                    Some(format!("groups are 0 to {last}"))
                }
                known => known,
            };
            let known = known.map(|words| format!(": {words}"));
            Failure::refused(format!("{about}{}", known.unwrap_or_default()))(refusal)
        }
    }

    /// In words.
    fn name(&self) -> String {
        let Place {
            numbers,
            lost,
            group,
            ..
        } = self;
        let rack = numbers.rack_of(*lost);
        format!(
            "card of group {group} for rack {rack} of {}",
            numbers.name()
        )
    }
}

fn print<S: Symbol>(
    place: &Place,
    disk: &dyn Disk,
    path: &Path,
    screen: &mut Screen,
) -> Result<(), Failure> {
    let Place {
        numbers,
        lost,
        helpers,
        group,
    } = place;
    let mut card = vec![S::default(); numbers.helpers * numbers.digits];
    (S::CALLS.card)(numbers.layout, *lost, helpers, *group, &mut card)
        .map_err(place.refused(place.name()))?;
    let lines = card::lines(&card, numbers.helpers);
    screen.heading(place.name());
    lines
        .iter()
        .for_each(|line| screen.line(format!("  {line}")));
    output::write_named(disk, path, (lines.join("\n") + "\n").as_bytes())
}

fn test<S: Symbol>(
    place: &Place,
    disk: &dyn Disk,
    path: &Path,
    screen: &mut Screen,
) -> Result<(), Failure> {
    let Place {
        numbers,
        lost,
        helpers,
        group,
    } = place;
    let card: Vec<S> = card::read(disk, path)?;
    let about = format!("{}: {}", path.display(), place.name());
    (S::CALLS.card_test)(numbers.layout, *lost, helpers, &card, *group)
        .map_err(place.refused(about))?;
    let right = screen.paint(Paint::Good, "right");
    screen.heading(place.name());
    screen.line(format!(
        "  {right}: it gives the rack's sums of every codeword"
    ));
    Ok(())
}
