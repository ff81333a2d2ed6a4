//! `cabinet repair`: lost trays of one rack from shares, in pieces; one tray, a stripe at a time,
//! where a share may be wrong.

use super::Command;
use crate::code::field::in_field;
use crate::code::symbol::Symbol;
use crate::disk::Disk;
use crate::failure::{Failure, Outcome};
use crate::files::cabinet::Cabinet;
use crate::files::description;
use crate::files::survey::Survey;
use crate::jobs::JOBS;
use crate::repair::helpers::helpers;
use crate::repair::in_groups::{is_full_set, GroupRepair, Means};
use crate::repair::shares::Shares;
use crate::repair::stripe_repair::{judge, judge_correcting};
use crate::repair::{card, checkpoint_path, correcting, Repair, SPARE};
use crate::terminal::arguments::{needed, Arguments, Setting};
use crate::terminal::screen::Screen;
use crate::terminal::{progress, report};
use gesarumbo::{Rack, Tray};
use std::path::Path;

const LOST: Setting = Setting::with(
    "--lost",
    "X,Y,..",
    "the trays to bring back, rising; their own images are not looked at",
);
const HELPERS: Setting = Setting::with(
    "--helpers",
    "a,b,..",
    "d other racks, rising; if not given, those of the checkpoint, else the first d that are sound",
);
const SHARE: Setting = Setting::with(
    "--share",
    "FILE",
    "a helper's share, from cabinet share: once for each helper, in their order; without it \
     shares are worked out from DIR",
)
.repeated();
const FIRST: Setting = Setting::with(
    "--first",
    "G",
    "begin with group G of those of all stripes, in the stripe under repair and at most the groups \
     done; without it, go on where the checkpoint ends",
);
const BUDGET: Setting = Setting::with("--budget", "N", "do at most N groups now");
const CARD: Setting = Setting::with(
    "--card",
    "FILE",
    "do the next group by this card, from cabinet card: once for each group, in their order; with \
     cards for all groups of a stripe all stripes are repaired",
)
.repeated();

pub const COMMAND: Command = Command {
    name: "repair",
    summary: "bring back lost trays of one rack from shares, name a stale rack",
    help: HELP,
    settings: &[
        LOST,
        HELPERS,
        SHARE,
        FIRST,
        BUDGET,
        CARD,
        SPARE,
        JOBS,
        description::LAYOUT,
        description::VOLUME,
        description::FIELD,
        description::STRIPES,
    ],
    run,
};

const HELP: &str = "\
cabinet repair DIR --lost X,Y,.. [--helpers a,b,..] [--share FILE]..
               [--first G] [--budget N] [--card FILE].. [--spare FILE]

Brings back tray X, or up to u - v trays of one rack, from the shares of d
helper racks and the other trays of their rack, some groups at a time, stripe
after stripe. Where no helpers are named, they are the first d racks all of
whose trays are live; cabinet fix finds out what is lost by itself. From time to
time, and where the budget ends, a checkpoint keeps the spare of the stripe
under repair and the groups done, so a repair that is broken off goes on where
it ended, and looks at all that it has written before. When all groups of a
stripe are done, the trays are tested with all others that are there; where
these leave nothing to test by, it says so (16). Where trays of a stripe are
wrong and code and checksums can tell which, the stripe is put right and they
are named (17); else no file is replaced (65). When all stripes are done, the
new files take the old ones' places, if the cabinet is still the one that the
repair began with, and the checkpoint is removed. A group of one lost tray can
be done by a card, whoever has printed it: a card that is not right for the
group is refused (15).

In a cabinet with E = 1 one of the d shares may be wrong. One tray is brought
back, all groups of a stripe at once: the tray is right all the same, and the
rack whose share is wrong is named. If no single share can be the wrong one, the
repair is refused (14).
";

/// What the command line asks for.
struct Asked {
    lost: Vec<Tray>,
    /// The helpers, if they are named.
    helpers: Option<Vec<Rack>>,
    first: Option<u64>,
    budget: u64,
}

impl Asked {
    fn read(arguments: &Arguments) -> Result<Asked, Failure> {
        let lost = needed(LOST, arguments.list(LOST)?)?;
        let helpers = arguments.list(HELPERS)?;
        if helpers.is_none() && arguments.has(SHARE) {
            let words = format!("{} needs {}", SHARE.name, HELPERS.name);
            return Err(Failure::Usage(words));
        }
        Ok(Asked {
            lost: lost.into_iter().map(Tray::new).collect(),
            helpers: helpers.map(|racks| racks.into_iter().map(Rack::new).collect()),
            first: arguments.number(FIRST)?,
            budget: arguments.number(BUDGET)?.unwrap_or(u64::MAX),
        })
    }

    /// The repair, with helpers that are sound where none are named.
    fn repair<S: Symbol>(
        &self,
        cabinet: &Cabinet,
        arguments: &Arguments,
    ) -> Result<Repair, Failure> {
        let lost = self.lost.clone();
        if let Some(helpers) = self.helpers.clone() {
            return Ok(Repair { lost, helpers });
        }
        // What is wrong with the trays themselves the library says first.
        let any = Repair {
            lost: lost.clone(),
            helpers: cabinet.numbers.first_helpers(&lost),
        };
        match cabinet.numbers.errors {
            0 => judge::<S>(&cabinet.numbers, &any, 0)?,
            _ => judge_correcting::<S>(&cabinet.numbers, &any)?,
        }
        let path = checkpoint_path(arguments, cabinet, &lost)?;
        let survey = Survey::of::<S>(cabinet, &mut Screen::silent())?;
        let helpers = helpers(cabinet, &survey, &lost, &path)?;
        Ok(Repair { lost, helpers })
    }
}

fn run(arguments: &Arguments, disk: &dyn Disk, screen: &mut Screen) -> Result<Outcome, Failure> {
    let [folder] = arguments.words(["DIR"])?;
    let asked = Asked::read(arguments)?;
    let cabinet = Cabinet::find(disk, folder, arguments)?;
    in_field!(
        cabinet.description.field,
        repair(&cabinet, &asked, arguments, screen)
    )
}

fn repair<S: Symbol>(
    cabinet: &Cabinet,
    asked: &Asked,
    arguments: &Arguments,
    screen: &mut Screen,
) -> Result<Outcome, Failure> {
    let repair = asked.repair::<S>(cabinet, arguments)?;
    let lost = repair.lost.len();
    screen.fact("cabinet", report::cabinet(cabinet));
    screen.fact("lost", report::trays(&repair.lost));
    screen.fact("helpers", report::racks(&repair.helpers));
    match lost {
        1 if cabinet.numbers.errors > 0 && !arguments.has(CARD) => {
            at_once::<S>(cabinet, &repair, arguments, screen)
        }
        _ => in_groups::<S>(cabinet, asked, &repair, arguments, screen),
    }
}

/// One tray, though a share may be wrong.
fn at_once<S: Symbol>(
    cabinet: &Cabinet,
    repair: &Repair,
    arguments: &Arguments,
    screen: &mut Screen,
) -> Result<Outcome, Failure> {
    if let Some(setting) = [FIRST, BUDGET, SPARE].iter().find(|of| arguments.has(**of)) {
        let words = format!("{}: with E = 1 all groups are done at once", setting.name);
        return Err(Failure::Usage(words));
    }
    judge_correcting::<S>(&cabinet.numbers, repair)?;
    let shares = Shares::open::<S>(cabinet, repair, &arguments.values(SHARE))?;
    correcting::repair::<S>(cabinet, repair, shares, screen)
}

fn in_groups<S: Symbol>(
    cabinet: &Cabinet,
    asked: &Asked,
    repair: &Repair,
    arguments: &Arguments,
    screen: &mut Screen,
) -> Result<Outcome, Failure> {
    let total = total(cabinet);
    // Within all stripes a first group is never too large for the library, past them it always is.
    let past = asked.first.filter(|first| *first > total);
    judge::<S>(&cabinet.numbers, repair, past.unwrap_or(0))?;
    let cards = cards::<S>(cabinet, repair, arguments)?;
    let mut shares = Shares::open::<S>(cabinet, repair, &arguments.values(SHARE))?;
    let path = checkpoint_path(arguments, cabinet, &repair.lost)?;
    let mut work = GroupRepair::<S>::open(cabinet, repair, path, screen)?;
    let first = start(asked.first, &work)?;
    if work.position() > 0 {
        progress::goes_on(cabinet, work.stripe_number(), screen);
    }
    let end = match cards.len() as u64 {
        0 => first.saturating_add(asked.budget).min(total),
        _ if is_full_set(cabinet, &cards, first - work.stripe_start()) => total,
        cards => first + cards,
    };
    let mut means = Means {
        shares: &mut shares,
        cards: &cards,
    };
    work.work(&mut means, first..end, screen)?;
    if work.is_whole() {
        return work.finish(screen);
    }
    screen.fact("whole", false);
    screen.fact("groups_done", work.position());
    screen.fact("groups", total);
    screen.fact("checkpoint", report::path(work.path()));
    let place = work.path().display();
    screen.line(format!(
        "  the spare is kept in {place}; repair goes on with it"
    ));
    Ok(Outcome::Done)
}

/// Groups of all stripes together.
fn total(cabinet: &Cabinet) -> u64 {
    u64::from(cabinet.description.stripes) * cabinet.numbers.groups as u64
}

/// The cards that are named, each of one group.
fn cards<S: Symbol>(
    cabinet: &Cabinet,
    repair: &Repair,
    arguments: &Arguments,
) -> Result<Vec<Vec<S>>, Failure> {
    let files = arguments.values(CARD);
    let but = match repair.lost.len() {
        _ if files.is_empty() => None,
        1 if arguments.has(BUDGET) => Some(format!("there is no {} with it", BUDGET.name)),
        1 => None,
        _ => Some("cards are for one lost tray".to_string()),
    };
    match but {
        Some(words) => Err(Failure::Usage(format!("{}: {words}", CARD.name))),
        None => files
            .iter()
            .map(|file| card::read(cabinet.disk, Path::new(file)))
            .collect(),
    }
}

/// The group to begin with: no group may be left out, and stripes that are whole stay so.
fn start<S: Symbol>(asked: Option<u64>, work: &GroupRepair<S>) -> Result<u64, Failure> {
    let (done, whole) = (work.position(), work.stripe_start());
    let but = match asked {
        Some(first) if first > done => format!(
            "only {done} groups are done, {} {first} would leave some out",
            FIRST.name
        ),
        Some(first) if first < whole => format!(
            "the groups below {whole} are of stripes that are whole, {} {first} is one of them",
            FIRST.name
        ),
        first => return Ok(first.unwrap_or(done)),
    };
    let place = work.path().display();
    Err(Failure::Contents(format!("{place}: {but}")))
}
