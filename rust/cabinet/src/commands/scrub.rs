//! `cabinet scrub`: whether a cabinet's trays are codewords, some layers at a time.

use super::Command;
use crate::code::field::in_field;
use crate::code::symbol::Symbol;
use crate::disk::Disk;
use crate::drawing::scrub_picture;
use crate::failure::{Failure, Outcome};
use crate::files::cabinet::Cabinet;
use crate::files::{checkpoint, description, output};
use crate::jobs::JOBS;
use crate::scrub::verdict::conclude;
use crate::scrub::{self, record, Scrub};
use crate::terminal::arguments::{Arguments, Setting};
use crate::terminal::screen::Screen;
use crate::terminal::{report, scrub_map};
use std::path::{Path, PathBuf};

const BUDGET: Setting = Setting::with(
    "--budget",
    "N",
    "look at no more than N layers now; without it, at all that are left",
);
const RESET: Setting = Setting::plain("--reset", "start anew, whatever the checkpoint holds");
const RECORD: Setting = Setting::with(
    "--record",
    "FILE",
    "the checkpoint, DIR/scrub.txt if not given",
);
const MAP: Setting = Setting::plain(
    "--map",
    "print the map of the layers or stripes, bad ones or none",
);
const SVG: Setting = Setting::with("--svg", "FILE", "draw the layers or stripes");

pub const COMMAND: Command = Command {
    name: "scrub",
    summary: "test the trays some layers at a time, as a night check",
    help: HELP,
    settings: &[
        BUDGET,
        RESET,
        RECORD,
        MAP,
        SVG,
        JOBS,
        description::LAYOUT,
        description::VOLUME,
        description::FIELD,
        description::STRIPES,
    ],
    run,
};

const HELP: &str = "\
cabinet scrub DIR [--budget N] [--reset] [--record FILE] [--map] [--svg FILE]

Tests whether the trays of DIR meet every parity check and have the checksums
that were written, some layers at a time, stripe after stripe. Trays that are
missing are done without, and the others tested by the checks that are left
(16). Trays that are wrong are named with their stripes at the end. Between two
calls, and from time to time within one, a checkpoint keeps how far it is and
what is bad, so that a scrub that was cut goes on where it ended; one of another
cabinet or generation is not gone on with (65). At the end the file is removed.
Bad layers are an answer, with exit status 65 when all layers have been seen. As
soon as one has been seen, a map shows where they lie: a cell for each layer, or
where there are several stripes, for each of these.
";

fn run(arguments: &Arguments, disk: &dyn Disk, screen: &mut Screen) -> Result<Outcome, Failure> {
    let [folder] = arguments.words(["DIR"])?;
    let budget = arguments.number(BUDGET)?.unwrap_or(u64::MAX);
    let path = match arguments.value(RECORD) {
        Some(file) => {
            let named = PathBuf::from(file);
            checkpoint::guard(disk, &named)?;
            named
        }
        None => Path::new(folder).join(scrub::NAME),
    };
    let cabinet = Cabinet::find(disk, folder, arguments)?;
    in_field!(
        cabinet.description.field,
        scrub(&cabinet, budget, path, arguments, screen)
    )
}

fn scrub<S: Symbol>(
    cabinet: &Cabinet,
    budget: u64,
    path: PathBuf,
    arguments: &Arguments,
    screen: &mut Screen,
) -> Result<Outcome, Failure> {
    let mut scrub = match arguments.has(RESET) {
        true => Scrub::begin(cabinet, path),
        false => Scrub::go_on::<S>(cabinet, path)?,
    };
    scrub.work::<S>(budget, screen)?;
    show(arguments, cabinet, &scrub, screen)?;
    if scrub.is_over() {
        scrub.discard()?;
        record::write(&scrub, cabinet, screen);
        return conclude(&scrub, cabinet, screen);
    }
    scrub.save()?;
    scrub.report(screen);
    screen.fact("checkpoint", report::path(scrub.path()));
    let place = scrub.path().display();
    screen.line(format!(
        "  the checkpoint is kept in {place}; scrub goes on with it"
    ));
    Ok(Outcome::Done)
}

/// Where the bad layers lie: on the screen if there are any, and as it is asked for.
fn show(
    arguments: &Arguments,
    cabinet: &Cabinet,
    scrub: &Scrub,
    screen: &mut Screen,
) -> Result<(), Failure> {
    let findings = &scrub.findings;
    if arguments.has(MAP) || !findings.is_sound() {
        scrub_map::print(findings, screen);
    }
    if let Some(path) = arguments.value(SVG).map(Path::new) {
        let picture = scrub_picture::draw(&cabinet.description, findings);
        output::write_named(cabinet.disk, path, picture.as_bytes())?;
        screen.line(format!("  drawn in {}", path.display()));
    }
    Ok(())
}
