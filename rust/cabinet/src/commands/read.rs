//! `cabinet read`: some layers of a tray, also of one under repair.

use super::Command;
use crate::code::field::in_field;
use crate::code::symbol::Symbol;
use crate::disk::Disk;
use crate::failure::{Failure, Outcome};
use crate::files::cabinet::Cabinet;
use crate::files::description;
use crate::files::mend::Held;
use crate::files::output;
use crate::files::stripe::Stripe;
use crate::files::survey::introduce;
use crate::repair::reading::{Origin, Reading, Source};
use crate::repair::{checkpoint_path, SPARE};
use crate::terminal::arguments::{needed, Arguments, Setting};
use crate::terminal::screen::{Paint, Screen};
use crate::terminal::words::{count, hanging};
use crate::terminal::{dump, progress, runs};
use gesarumbo::{Refusal, Tray};
use std::ops::Range;
use std::path::Path;

const TRAY: Setting = Setting::with("--tray", "Y", "the tray to read");
const LAYERS: Setting = Setting::with("--layers", "A..B", "its layers from A on, up to B - 1");
const LOST: Setting = Setting::with(
    "--lost",
    "X",
    "the tray under repair; its own image is not looked at",
);
const STRIPE: Setting = Setting::with("--stripe", "I", "the stripe to read, 0 if not given");
const OUT: Setting = Setting::with(
    "--out",
    "FILE",
    "write the symbols to FILE in place of printing them, one byte each; two, low byte first, in \
     the field of 257",
);

pub const COMMAND: Command = Command {
    name: "read",
    summary: "read layers of a tray, also of one under repair",
    help: HELP,
    settings: &[
        TRAY,
        LAYERS,
        LOST,
        SPARE,
        STRIPE,
        OUT,
        description::LAYOUT,
        description::VOLUME,
        description::FIELD,
        description::STRIPES,
    ],
    run,
};

const HELP: &str = "\
cabinet read DIR --tray Y --layers A..B [--stripe I] [--lost X [--spare FILE]]
             [--out FILE]

Prints symbols of tray Y, and whether they lie in the store (all trays of a
stripe one after another) or in the spare, and at which place. While tray X is
under repair, its own layers are read from the spare, each as soon as its group
is done, and else refused (13). Any other tray is read from the store and must
be live.

Nothing is handed out (65) of a checkpoint of another cabinet, of another tray
or of several, nor where the trays of DIR are not those that the spare was made
from, nor of layers that do not fit to the other trays. Where no tray is left to
hold them against, and no checksum, it says so (16). Cabinets with E = 1 are not
read so (1): their repairs have no pieces.
";

/// What the command line asks for.
struct Asked {
    tray: Tray,
    layers: Range<u32>,
    lost: Option<Tray>,
    stripe: u32,
}

impl Asked {
    fn read(arguments: &Arguments) -> Result<Asked, Failure> {
        let layers = needed(LAYERS, arguments.range(LAYERS)?)?;
        let lost = arguments.number(LOST)?;
        if lost.is_none() && arguments.has(SPARE) {
            let words = format!("{} needs {}", SPARE.name, LOST.name);
            return Err(Failure::Usage(words));
        }
        Ok(Asked {
            tray: Tray::new(needed(TRAY, arguments.number(TRAY)?)?),
            layers,
            lost: lost.map(Tray::new),
            stripe: arguments.number(STRIPE)?.unwrap_or(0),
        })
    }
}

fn run(arguments: &Arguments, disk: &dyn Disk, screen: &mut Screen) -> Result<Outcome, Failure> {
    let [folder] = arguments.words(["DIR"])?;
    let asked = Asked::read(arguments)?;
    let cabinet = Cabinet::find(disk, folder, arguments)?;
    in_field!(
        cabinet.description.field,
        read(&cabinet, &asked, arguments, screen)
    )
}

fn read<S: Symbol>(
    cabinet: &Cabinet,
    asked: &Asked,
    arguments: &Arguments,
    screen: &mut Screen,
) -> Result<Outcome, Failure> {
    let segment = cabinet.segment_with::<S>(asked.stripe)?;
    introduce(&segment, screen);
    let stripe = segment.stripe(asked.stripe);
    let reading = match asked.lost {
        None => Reading::of_store(&stripe, asked.tray),
        Some(lost) => under_repair(cabinet, &stripe, lost, arguments, screen)?,
    };
    let (part, source, held) = reading
        .read(asked.tray, asked.layers.clone())
        .inspect_err(|failure| say_readable(failure, &reading, screen))
        .map_err(stripe.named())?;
    say_place(asked, part, source, cabinet, screen);
    let outcome = say_held(part, held, screen);
    match arguments.value(OUT) {
        Some(path) => output::write_named(cabinet.disk, Path::new(path), &S::to_bytes(part))?,
        None => {
            let lines = dump::lines(asked.layers.start, part);
            lines.iter().for_each(|line| screen.line(line));
        }
    }
    Ok(outcome)
}

/// Says what the symbols were held against.
fn say_held<S>(part: &[S], held: Held, screen: &mut Screen) -> Outcome {
    match held {
        _ if part.is_empty() => Outcome::Done,
        Held::Checks => {
            screen.line("  tested: they fit to the other trays");
            Outcome::Done
        }
        Held::Checksums => {
            screen.line("  tested: the tray's checksum is right; no tray to spare for checks");
            Outcome::Done
        }
        Held::Nothing => {
            let words = screen.paint(Paint::Warning, "not tested: no tray to spare");
            screen.line(format!("  {words}"));
            Outcome::NotTested
        }
    }
}

/// Opens the spare of a lost tray, and says how far its repair is and what was not compared.
fn under_repair<'a, S: Symbol>(
    cabinet: &Cabinet,
    stripe: &'a Stripe<'a, S>,
    lost: Tray,
    arguments: &Arguments,
    screen: &mut Screen,
) -> Result<Reading<'a, S>, Failure> {
    let path = checkpoint_path(arguments, cabinet, &[lost])?;
    let (reading, origin) = Reading::open(cabinet, stripe, lost, &path)?;
    let (done, groups) = (reading.done, stripe.cabinet.numbers.groups);
    screen.line(format!(
        "  tray {lost} is under repair: {done} of {groups} groups are done"
    ));
    match origin {
        Origin::Known => {}
        Origin::NoFile => screen.line(format!("  there is no checkpoint {}", path.display())),
        Origin::NotCompared => {
            let words = screen.paint(Paint::Warning, "not compared");
            screen.line(format!(
                "  {words}: trays that the spare was made from are not here"
            ));
        }
    }
    Ok(reading)
}

/// Says what was read, and where it lies.
fn say_place<S: Symbol>(
    asked: &Asked,
    part: &[S],
    source: Source,
    cabinet: &Cabinet,
    screen: &mut Screen,
) {
    let unit = S::FIELD.unit();
    let Range { start: first, end } = asked.layers;
    let layers = progress::run("layer", first.into(), end.into());
    let (tray, symbols) = (asked.tray, count(part.len(), unit));
    let place = cabinet.place(asked.stripe);
    let what = format!("  {place}{layers} of tray {tray}: {symbols}");
    let in_store = tray.number() as usize * cabinet.numbers.layers + first as usize;
    match source {
        _ if part.is_empty() => screen.line(what),
        Source::Store => screen.line(format!("{what} of the store, from {unit} {in_store} on")),
        Source::Spare => screen.line(format!("{what} of the spare, from {unit} {first} on")),
    }
}

/// Where a layer is not yet repaired, which ones are.
fn say_readable<S: Symbol>(failure: &Failure, reading: &Reading<S>, screen: &mut Screen) {
    if let Failure::Refused {
        refusal: Refusal::NotRepaired,
        ..
    } = failure
    {
        let layers = runs::named(&runs::of(&reading.readable()));
        screen.line(hanging("  layers that can be read: ", &layers));
    }
}
