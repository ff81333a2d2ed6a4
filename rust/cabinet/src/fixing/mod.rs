//! Everything that is broken in a cabinet, or trays that were exchanged, written anew: by shares where
//! that is the least traffic, else by a recovery; at the end all trays are tested.

pub mod plan;

use crate::code::field::in_field;
use crate::code::symbol::Symbol;
use crate::commands::recover;
use crate::disk::Disk;
use crate::failure::{Failure, Outcome};
use crate::files;
use crate::files::cabinet::Cabinet;
use crate::files::census::write_text;
use crate::files::description::Description;
use crate::files::erasures::Erasures;
use crate::files::mend::union;
use crate::files::survey::Survey;
use crate::files::{draft, tasks};
use crate::repair::helpers::helpers;
use crate::repair::whole::by_shares;
use crate::repair::{spare_path, Repair};
use crate::scrub::verdict::conclude;
use crate::scrub::{self, record, Scrub};
use crate::status::standing::{self, Standing};
use crate::terminal::arguments::Arguments;
use crate::terminal::json::Json;
use crate::terminal::report;
use crate::terminal::screen::{Facts, Paint, Screen};
use crate::terminal::words::{grouped, hanging, trays};
use gesarumbo::{Rack, Refusal, Tray};
use plan::{choose, Way};
use std::path::Path;

/// What is to be done, and what has been.
pub struct Fixing<'f> {
    disk: &'f dyn Disk,
    folder: &'f Path,
    arguments: &'f Arguments,
    /// Trays that are written anew whatever stands at their places; all that are broken, if none are
    /// named.
    named: Vec<Tray>,
    /// Whether they are written even where nothing is left to test the others by.
    insists: bool,
    /// The cabinet that was found first.
    first: Option<Description>,
    outcome: Outcome,
    steps: Vec<Json>,
}

/// What a test has found.
enum Tested {
    Well(Outcome),
    /// Trays are wrong or missing.
    Broken(Failure),
}

/// Writes everything anew that is broken in the cabinet of a folder, or the trays that are named.
pub fn fix(
    disk: &dyn Disk,
    folder: &Path,
    arguments: &Arguments,
    (named, insists): (Vec<Tray>, bool),
    screen: &mut Screen,
) -> Result<Outcome, Failure> {
    let mut fixing = Fixing {
        disk,
        folder,
        arguments,
        named,
        insists,
        first: None,
        outcome: Outcome::Done,
        steps: Vec::new(),
    };
    // The lock is not kept: each step takes its own.
    let field = fixing.find()?.description.field;
    in_field!(field, run(&mut fixing, screen))
}

fn run<S: Symbol>(fixing: &mut Fixing, screen: &mut Screen) -> Result<Outcome, Failure> {
    let ended = fixing.work::<S>(screen);
    screen.fact("steps", Json::List(std::mem::take(&mut fixing.steps)));
    ended
}

impl<'f> Fixing<'f> {
    fn work<S: Symbol>(&mut self, screen: &mut Screen) -> Result<Outcome, Failure> {
        let is_done = match self.choose::<S>(screen)? {
            Way::Shares(racks) => self.by_shares::<S>(racks, screen)?,
            Way::Recovery(why) => {
                screen.line(hanging("", &format!("By a recovery: {why}.")));
                false
            }
        };
        if is_done {
            match self.test::<S>(!self.named.is_empty(), screen)? {
                Tested::Well(outcome) => return self.end(outcome, screen),
                Tested::Broken(failure) if !self.named.is_empty() => return Err(failure),
                Tested::Broken(_) => {}
            }
        }
        self.recover::<S>(!is_done, screen)?;
        match self.test::<S>(true, screen)? {
            Tested::Well(outcome) => self.end(outcome, screen),
            Tested::Broken(failure) => Err(failure),
        }
    }

    /// The cabinet in the folder, which must be the one that was there first.
    fn find(&mut self) -> Result<Cabinet<'f>, Failure> {
        let cabinet = Cabinet::find(self.disk, self.folder, self.arguments)?;
        match *self.first.get_or_insert(cabinet.description) == cabinet.description {
            true => Ok(cabinet),
            false => Err(Failure::Contents(format!(
                "{}: another cabinet has been stored here since",
                self.folder.display()
            ))),
        }
    }

    /// Looks at all trays, and chooses how those that are broken come back.
    fn choose<S: Symbol>(&mut self, screen: &mut Screen) -> Result<Way, Failure> {
        let cabinet = self.find()?;
        self.judge(&cabinet)?;
        let survey = Survey::of::<S>(&cabinet, &mut Screen::silent())?;
        let broken = self.broken(&cabinet, &survey);
        screen.heading(cabinet.description.words());
        screen.fact("cabinet", report::cabinet(&cabinet));
        screen.fact("broken", report::trays(&broken));
        self.say_broken(&cabinet, &survey, &broken, screen);
        match broken.is_empty() {
            true => Ok(Way::Shares(Vec::new())),
            false => Ok(choose(&cabinet, &survey, &broken)),
        }
    }

    /// Says of each broken tray how it stands. What is there and wrong is healed by what follows.
    fn say_broken(
        &mut self,
        cabinet: &Cabinet,
        survey: &Survey,
        broken: &[Tray],
        screen: &mut Screen,
    ) {
        let in_files = union(&cabinet.unlabelled(), &cabinet.too_long());
        let wrong = union(&survey.rotten, &in_files);
        if self.named.is_empty() && broken.iter().any(|tray| wrong.contains(tray)) {
            self.outcome = Outcome::Healed;
        }
        let trays = standing::of(cabinet, survey);
        let trays = trays.iter().filter(|of| broken.contains(&of.tray));
        for of in trays.filter(|of| of.standing != Standing::Live) {
            screen.line(hanging("  ", &of.words(screen)));
        }
    }

    /// Trays that are named are trays of the cabinet.
    fn judge(&self, cabinet: &Cabinet) -> Result<(), Failure> {
        let trays = cabinet.numbers.trays;
        let outside = |tray: &&Tray| tray.number() as usize >= trays;
        match self.named.iter().find(outside) {
            None => Ok(()),
            Some(tray) => {
                let about = format!("no tray {tray}: trays are 0 to {}", trays - 1);
                Err(Failure::refused(about)(Refusal::Number))
            }
        }
    }

    /// The trays to write anew: those that are named, else all that are not live and are not only
    /// closed to this command, or have a label that cannot be read or a file that is too long.
    fn broken(&self, cabinet: &Cabinet, survey: &Survey) -> Vec<Tray> {
        if !self.named.is_empty() {
            return self.named.clone();
        }
        let in_files = union(&cabinet.unlabelled(), &cabinet.too_long());
        let mut broken = union(&survey.damaged(), &in_files);
        broken.retain(|tray| survey.closed.iter().all(|(closed, _)| closed != tray));
        broken
    }

    /// Repairs rack after rack. False where one cannot be, and a recovery has to do it.
    fn by_shares<S: Symbol>(
        &mut self,
        racks: Vec<Vec<Tray>>,
        screen: &mut Screen,
    ) -> Result<bool, Failure> {
        for lost in racks {
            let (ended, facts) = screen.apart(|screen| self.rack::<S>(lost, screen));
            self.add_step("shares", &ended, facts);
            match ended {
                Ok(outcome) => self.outcome = self.outcome.max(outcome),
                Err(failure @ (Failure::Refused { .. } | Failure::Contents(_))) => {
                    let words = screen.paint(Paint::Warning, "Shares do not do");
                    screen.line(hanging("", &format!("{words}: {failure}")));
                    return Ok(false);
                }
                Err(failure) => return Err(failure),
            }
        }
        Ok(true)
    }

    fn add_step(&mut self, way: &str, ended: &Result<Outcome, Failure>, facts: Facts) {
        let status = match ended {
            Ok(outcome) => outcome.status(),
            Err(failure) => failure.status(),
        };
        let head = vec![("way", way.into()), ("status", status.into())];
        let facts = facts.into_iter().filter(|(name, _)| *name != "cabinet");
        self.steps
            .push(Json::Object(head.into_iter().chain(facts).collect()));
    }

    /// Repairs the lost trays of one rack.
    fn rack<S: Symbol>(
        &mut self,
        lost: Vec<Tray>,
        screen: &mut Screen,
    ) -> Result<Outcome, Failure> {
        let cabinet = self.find()?;
        cabinet.guard_newer(&self.named)?;
        let survey = Survey::of::<S>(&cabinet, &mut Screen::silent())?;
        let helpers = helpers(&cabinet, &survey, &lost, &spare_path(&cabinet, &lost))?;
        let repair = Repair { lost, helpers };
        let crossing = repair.lost.len() * cabinet.numbers.traffic;
        let racks: Vec<String> = repair.helpers.iter().map(Rack::to_string).collect();
        let (names, are) = repair.names();
        let words = format!(
            "By shares: {names} {are} repaired from racks {}; {} symbols cross a stripe, a \
             recovery reads {}.",
            racks.join(", "),
            grouped(crossing),
            grouped(cabinet.numbers.data())
        );
        screen.fact("lost", report::trays(&repair.lost));
        screen.fact("helpers", report::racks(&repair.helpers));
        screen.line(hanging("", &words));
        by_shares::<S>(&cabinet, &repair, screen)
    }

    /// Brings back what is left, from all trays that are there.
    fn recover<S: Symbol>(&mut self, names_all: bool, screen: &mut Screen) -> Result<(), Failure> {
        let cabinet = self.find()?;
        let named = match names_all {
            true => self.named.clone(),
            false => Vec::new(),
        };
        let insists = self.insists;
        let named = Erasures::whole(&named);
        let recover =
            |screen: &mut Screen| recover::recover::<S>(&cabinet, &named, insists, screen);
        let (ended, facts) = screen.apart(recover);
        self.add_step("recovery", &ended, facts);
        self.outcome = self.outcome.max(ended?);
        Ok(())
    }

    /// Tests all trays; at the end, and where all is well, it is said and a record kept, as by a
    /// scrub.
    fn test<S: Symbol>(&mut self, is_end: bool, screen: &mut Screen) -> Result<Tested, Failure> {
        let cabinet = self.find()?;
        let mut scrub = Scrub::begin(&cabinet, cabinet.file(scrub::NAME));
        scrub.work_quietly::<S>(&mut Screen::silent())?;
        // Where no trays are named, all are to be in order.
        let is_missing = self.named.is_empty() && !scrub.unused.is_empty();
        let ended = conclude(&scrub, &cabinet, &mut Screen::silent());
        if is_end || (ended.is_ok() && !is_missing) {
            let _ = conclude(&scrub, &cabinet, screen);
            record::write(&scrub, &cabinet, screen);
        }
        match ended {
            Ok(_) if is_missing => Ok(Tested::Broken(Failure::Contents(format!(
                "{} could not be brought back",
                trays(&scrub.unused)
            )))),
            Ok(outcome) => Ok(Tested::Well(outcome)),
            Err(failure @ Failure::Contents(_)) => Ok(Tested::Broken(failure)),
            Err(failure) => Err(failure),
        }
    }

    /// Clears away what tasks that were cut have left, and writes `cabinet.txt` anew if it is not as
    /// the labels say.
    fn end(&mut self, tested: Outcome, screen: &mut Screen) -> Result<Outcome, Failure> {
        let cabinet = self.find()?;
        let (left, text) = (leftovers(&cabinet)?, cabinet.other_text());
        let is_clear = left.is_empty() && text.is_none();
        let ended = self.outcome.max(tested);
        if is_clear || tested != Outcome::Done {
            return Ok(ended);
        }
        cabinet.take_alone()?;
        for name in leftovers(&cabinet)? {
            files::remove(cabinet.disk, &cabinet.file(&name))?;
        }
        draft::sync_folder(cabinet.disk, cabinet.folder())?;
        if !left.is_empty() {
            screen.line(hanging("  ", &format!("cleared away: {}", left.join(", "))));
            screen.fact("cleared", left);
        }
        let Some(text) = text else {
            return Ok(ended);
        };
        write_text(cabinet.disk, cabinet.folder(), &text)?;
        screen.line("  cabinet.txt was not as the labels say, and is written anew");
        screen.fact("text_written", true);
        Ok(ended.max(Outcome::Healed))
    }
}

/// Checkpoints and work files of repairs and recoveries: once all trays are in order, of none.
fn leftovers(cabinet: &Cabinet) -> Result<Vec<String>, Failure> {
    let folder = cabinet.folder();
    let names = cabinet.disk.list(folder).map_err(Failure::file(folder))?;
    let names = names.into_iter().filter_map(|name| name.into_string().ok());
    let mut left: Vec<String> = names.filter(|name| tasks::is_of_rebuild(name)).collect();
    left.sort();
    Ok(left)
}
