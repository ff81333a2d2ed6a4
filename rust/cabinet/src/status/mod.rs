//! How a cabinet stands: every tray, the margin, the last scrub, open work, and what to type next.

pub mod next;
pub mod standing;
pub mod work;

use crate::code::symbol::Symbol;
use crate::failure::Failure;
use crate::files::cabinet::Cabinet;
use crate::files::survey::Survey;
use crate::scrub::record::Record;
use crate::terminal::json::Json;
use crate::terminal::screen::Screen;
use crate::terminal::words::{count, grouped, trays};
use crate::terminal::{clock, report};
use gesarumbo::Tray;
use next::Next;
use standing::{Standing, Stands};
use work::Work;

/// What is known of the last scrub that came to its end.
pub enum LastScrub {
    None,
    Of(Record),
}

/// A cabinet as it stands.
pub struct Status<'a> {
    pub cabinet: &'a Cabinet<'a>,
    pub survey: Survey,
    pub trays: Vec<Stands>,
    pub work: Vec<Work>,
    pub scrub: LastScrub,
    /// The trays that the last scrub found wrong and that have not been written since.
    pub wrong: Vec<Tray>,
    /// Whether `cabinet.txt` says what the labels say.
    pub has_text: bool,
}

impl<'a> Status<'a> {
    /// Looks at every tray of every segment, and at the folder; nothing is printed.
    pub fn of<S: Symbol>(cabinet: &'a Cabinet<'a>) -> Result<Status<'a>, Failure> {
        let survey = Survey::of::<S>(cabinet, &mut Screen::silent())?;
        let record = Record::read(cabinet)?;
        let wrong = record.as_ref().map(|record| record.still_wrong(cabinet));
        Ok(Status {
            cabinet,
            has_text: cabinet.other_text().is_none(),
            trays: standing::of(cabinet, &survey),
            survey,
            work: work::of(cabinet)?,
            wrong: wrong.unwrap_or_default(),
            scrub: record.map_or(LastScrub::None, LastScrub::Of),
        })
    }

    /// Whether a tray is not live, the last scrub found something that has not been put right, or
    /// `cabinet.txt` is not as the labels say.
    pub fn is_broken(&self) -> bool {
        let unclear = match &self.scrub {
            LastScrub::Of(record) => record.bad > 0 && record.faults.is_empty(),
            LastScrub::None => false,
        };
        let is_bad = |of: &Stands| of.standing != Standing::Live;
        let is_bad = self.trays.iter().any(is_bad) || !self.has_text;
        is_bad || !self.wrong.is_empty() || unclear
    }

    /// What to type next.
    pub fn next(&self) -> Next {
        Next::of(self, clock::now())
    }

    /// How many trays stand how, in words.
    pub fn counts(&self) -> String {
        let number = |standing| {
            let of = self.trays.iter().filter(|of| of.standing == standing);
            of.count()
        };
        let some = Standing::ALL.iter().map(|of| (number(*of), of.word()));
        let some: Vec<String> = some
            .filter(|(number, word)| *number > 0 || *word == "live")
            .map(|(number, word)| format!("{number} {word}"))
            .collect();
        format!(
            "{}; {} are needed",
            some.join(", "),
            self.cabinet.numbers.dimension
        )
    }

    /// The margin, and what it means.
    pub fn margin(&self) -> String {
        let meaning = match self.survey.margin {
            margin @ ..=-1 => format!("too few live trays by {}", -i64::from(margin)),
            0 => "no tray more may be lost".to_string(),
            1 => "one tray more may be lost".to_string(),
            margin => format!("any {margin} trays more may be lost"),
        };
        format!("{}: {meaning}", self.survey.margin)
    }

    /// What the last scrub found, in words.
    pub fn last_scrub(&self) -> String {
        let LastScrub::Of(record) = &self.scrub else {
            return "none is known".to_string();
        };
        let layers = grouped(record.layers as usize);
        let found = match (record.is_sound(), record.checks) {
            (true, 0) if !self.cabinet.geometry.has_checksums() => {
                "not tested: no tray to spare".to_string()
            }
            (true, 0) => format!("sound, {layers} layers by their checksums"),
            (true, checks) => format!(
                "sound, {layers} layers by {}",
                count(checks as usize, "check")
            ),
            (false, _) => format!(
                "{} of {layers} layers bad{}",
                record.bad,
                self.named(record)
            ),
        };
        let unused = match &record.unused[..] {
            [] => String::new(),
            unused => format!("; without {}", trays(unused)),
        };
        format!("{}: {found}{unused}", clock::words(record.ended))
    }

    /// The trays that the last scrub named.
    fn named(&self, record: &Record) -> String {
        let named = record.faults.trays();
        match (&named[..], &self.wrong[..]) {
            ([], _) => String::new(),
            (named, []) => format!(", {} wrong, written anew since", trays(named)),
            (named, _) => format!(", {} wrong", trays(named)),
        }
    }

    /// The whole as a report has it.
    pub fn report(&self, screen: &mut Screen) {
        let next = self.next();
        screen.fact("cabinet", report::cabinet(self.cabinet));
        screen.fact("trays", standing::json(self.cabinet, &self.survey));
        screen.fact("margin", self.survey.margin);
        screen.fact("broken", self.is_broken());
        screen.fact("text_right", self.has_text);
        screen.fact("scrub", self.scrub_json());
        screen.fact("work", Json::list(&self.work, Work::json));
        screen.fact(
            "next",
            Json::object([("line", next.line.into()), ("why", next.why.into())]),
        );
    }

    fn scrub_json(&self) -> Json {
        let LastScrub::Of(record) = &self.scrub else {
            return Json::Null;
        };
        Json::object([
            ("ended", record.ended.into()),
            ("layers", record.layers.into()),
            ("bad", record.bad.into()),
            ("checks", record.checks.into()),
            ("unused", report::trays(&record.unused)),
            ("faults", record.faults.json()),
            ("still_wrong", report::trays(&self.wrong)),
        ])
    }
}
