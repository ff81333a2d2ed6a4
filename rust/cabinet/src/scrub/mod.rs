//! The test of a cabinet some layers at a time, stripe after stripe, which can be cut anywhere.

pub mod examined;
pub mod findings;
pub mod record;
pub mod verdict;

use crate::code::symbol::Symbol;
use crate::failure::Failure;
use crate::files::cabinet::Cabinet;
use crate::files::checkpoint::{self, Checkpoint, MOST_UNSAVED};
use crate::files::description::Format;
use crate::files::faults::Faults;
use crate::files::segment::Segment;
use crate::files::survey::Unused;
use crate::terminal::progress::{self, Run};
use crate::terminal::report;
use crate::terminal::screen::Screen;
use examined::Examined;
use findings::Findings;
use gesarumbo::{ScrubRecord, Tray};
use std::path::{Path, PathBuf};

/// The checkpoint's file in a cabinet's folder.
pub const NAME: &str = "scrub.txt";

/// A scrub as far as it has come.
pub struct Scrub<'a> {
    cabinet: &'a Cabinet<'a>,
    path: PathBuf,
    /// The stripe under test.
    stripe: u32,
    /// The next layer of it.
    next: u32,
    /// The fingerprint of the last stripe that was looked at.
    over: u64,
    pub findings: Findings,
    pub faults: Faults,
    /// The least number of checks that a stripe was tested with.
    pub checks: u32,
    /// The trays that could not be used somewhere, this time.
    pub unused: Vec<Tray>,
    /// Bytes of codewords since the last checkpoint.
    unsaved: u64,
}

impl<'a> Scrub<'a> {
    /// A new scrub of a cabinet.
    pub fn begin(cabinet: &'a Cabinet<'a>, path: PathBuf) -> Scrub<'a> {
        Scrub {
            cabinet,
            path,
            stripe: 0,
            next: 0,
            over: 0,
            findings: Findings::new(cabinet),
            faults: Faults::default(),
            checks: cabinet.numbers.checks as u32,
            unused: Vec::new(),
            unsaved: 0,
        }
    }

    /// The scrub as its checkpoint has it; a new one if there is none.
    pub fn go_on<S: Symbol>(cabinet: &'a Cabinet<'a>, path: PathBuf) -> Result<Scrub<'a>, Failure> {
        let mut scrub = Scrub::begin(cabinet, path);
        let task = scrub.task();
        let found = Checkpoint::read(cabinet.disk, &scrub.path, |of| of == task, foreign)?;
        let Some(checkpoint) = found else {
            return Ok(scrub);
        };
        judge::<S>(cabinet, &checkpoint)?;
        scrub
            .take_over(&checkpoint)
            .ok_or_else(|| foreign(&scrub.path))?;
        // The generation tells cabinets apart, where there is one.
        if cabinet.description.format == Format::First {
            let last = checkpoint.last();
            let segment = cabinet.segment_with::<S>(last)?;
            if scrub.over != segment.stripe(last).fingerprint() {
                return Err(foreign(&scrub.path));
            }
        }
        Ok(scrub)
    }

    /// Takes over what a checkpoint says, if it can be of this scrub.
    fn take_over(&mut self, checkpoint: &Checkpoint) -> Option<()> {
        let cabinet = self.cabinet;
        let at = u64::from(checkpoint.stripe) * cabinet.numbers.layers as u64 + checkpoint.step;
        let text = str::from_utf8(&checkpoint.rest).ok()?;
        let (first, rest) = text.split_once('\n')?;
        let (faults, findings) = rest.split_once('\n')?;
        if checkpoint.stripe >= cabinet.description.stripes {
            return None;
        }
        self.checks = first.strip_prefix("checks ")?.parse().ok()?;
        self.faults = Faults::parse(faults)?;
        self.findings = Findings::parse(cabinet, at, findings.as_bytes())?;
        (self.stripe, self.next) = (checkpoint.stripe, checkpoint.step as u32);
        self.over = checkpoint.over;
        Some(())
    }

    /// The checkpoint's first line.
    fn task(&self) -> String {
        format!("scrub of {}", self.cabinet.description.key())
    }

    /// Whether all layers have been looked at.
    pub fn is_over(&self) -> bool {
        self.stripe == self.cabinet.description.stripes
    }

    pub fn path(&self) -> &Path {
        &self.path
    }

    /// Looks at the next layers, as many as the budget allows and are left, and says so where it goes
    /// on.
    pub fn work<S: Symbol>(&mut self, budget: u64, screen: &mut Screen) -> Result<(), Failure> {
        let layers = self.cabinet.numbers.layers;
        let whole = layers as u64 * u64::from(self.cabinet.description.stripes);
        let at = self.findings.at;
        let end = at.saturating_add(budget).min(whole);
        let mut run = Run::new(self.cabinet, "layer", layers, at..end);
        if at > 0 {
            progress::goes_on(self.cabinet, self.stripe, screen);
        }
        let mut unused = None;
        let cabinet = self.cabinet;
        let first = cabinet.geometry.segment_of(self.stripe);
        // A run of no layers still looks at a stripe, to say what cannot be used.
        let last = (end.max(at + 1) - 1) / layers as u64;
        let last = cabinet.geometry.segment_of(last as u32);
        let from = self.stripe;
        let look = examine::<S>(from);
        cabinet.over(first..last + 1, look, |examined| {
            Unused::begin_or_say(&mut unused, &examined.segment, screen);
            self.segment(examined, &mut run, screen)
        })?;
        self.unused = Unused::trays(unused);
        self.faults.add_files(self.cabinet, &self.unused);
        Ok(())
    }

    /// Looks at all layers, with a line for stripes alone and no checkpoint.
    pub fn work_quietly<S: Symbol>(&mut self, screen: &mut Screen) -> Result<(), Failure> {
        let mut unused = None;
        let (cabinet, layers) = (self.cabinet, self.cabinet.numbers.layers);
        let look = examine::<S>(0);
        cabinet.over(cabinet.segments_from(0), look, |mut examined| {
            Unused::begin_or_say(&mut unused, &examined.segment, screen);
            let stripes = examined.segment.stripes.clone();
            for number in stripes.clone() {
                let place = cabinet.place(number);
                let seen = examined.see(number).map_err(|failure| failure.at(&place))?;
                let bad = seen.bad.iter();
                bad.for_each(|layer| self.findings.add(number, *layer));
                self.checks = self.checks.min(seen.checks);
                self.findings.at += layers as u64;
            }
            self.add_faults(&examined);
            progress::segment(cabinet, &stripes, screen);
            Ok(())
        })?;
        self.unused = Unused::trays(unused);
        self.faults.add_files(self.cabinet, &self.unused);
        Ok(())
    }

    fn add_faults<S: Symbol>(&mut self, examined: &Examined<S>) {
        match &examined.mended {
            Some(Ok(mended)) => self.faults.add(&examined.segment, mended),
            Some(Err(_)) => self.faults.add_unsure(&examined.segment),
            None => {}
        }
    }

    /// Looks at the next layers of one segment.
    fn segment<S: Symbol>(
        &mut self,
        mut examined: Examined<S>,
        run: &mut Run,
        screen: &mut Screen,
    ) -> Result<(), Failure> {
        let end = examined.segment.stripes.end;
        while self.stripe < end {
            let place = self.cabinet.place(self.stripe);
            self.stripe(&mut examined, run, screen)
                .map_err(|failure| failure.at(&place))?;
            if run.is_over() {
                break;
            }
        }
        self.add_faults(&examined);
        let is_due = self.unsaved >= MOST_UNSAVED;
        match is_due && !run.is_over() && !self.is_over() {
            true => self.save(),
            false => Ok(()),
        }
    }

    /// Looks at the next layers of one stripe.
    fn stripe<S: Symbol>(
        &mut self,
        examined: &mut Examined<S>,
        run: &mut Run,
        screen: &mut Screen,
    ) -> Result<(), Failure> {
        let layers = self.cabinet.numbers.layers as u32;
        let before = self.findings.at;
        let seen = examined.see(self.stripe)?;
        loop {
            let left = u64::from(layers - self.next);
            let done = run.budget().min(left);
            let end = self.next + done as u32;
            let here = |layer: &&u32| (self.next..end).contains(*layer);
            let bad: Vec<u32> = seen.bad.iter().filter(here).copied().collect();
            bad.iter()
                .for_each(|layer| self.findings.add(self.stripe, *layer));
            self.findings.at += done;
            self.next = end;
            run.advance(done, || self.findings.bad_words(), screen);
            if run.is_over() || self.next == layers {
                break;
            }
        }
        // Where nothing is looked at, the last stripe is the one before.
        if before == 0 || self.findings.at > before {
            if self.cabinet.description.format == Format::First {
                self.over = examined.segment.stripe(self.stripe).fingerprint();
            }
            self.checks = self.checks.min(seen.checks);
            self.unsaved += (S::WIDTH * self.cabinet.numbers.codeword()) as u64;
        }
        if self.next == layers {
            (self.stripe, self.next) = (self.stripe + 1, 0);
        }
        Ok(())
    }

    /// Writes the checkpoint.
    pub fn save(&mut self) -> Result<(), Failure> {
        let (checks, faults) = (self.checks, self.faults.line());
        let rest = format!("checks {checks}\n{faults}{}", self.findings.text());
        let checkpoint = Checkpoint {
            task: self.task(),
            stripe: self.stripe,
            step: self.next.into(),
            over: self.over,
            rest: rest.into_bytes(),
        };
        self.unsaved = 0;
        checkpoint.write(self.cabinet.disk, &self.path)
    }

    /// What is found so far, as a report has it.
    pub fn report(&self, screen: &mut Screen) {
        screen.fact("cabinet", report::cabinet(self.cabinet));
        self.findings.report(screen);
        screen.fact("checks", self.checks);
        screen.fact("unused", report::trays(&self.unused));
        screen.fact("faults", self.faults.json());
    }

    /// Removes the checkpoint: the scrub is over.
    pub fn discard(&self) -> Result<(), Failure> {
        checkpoint::remove(self.cabinet.disk, &self.path)
    }
}

/// Looks at all stripes of a segment from one on.
fn examine<'a, S: Symbol>(
    from: u32,
) -> impl Fn(Segment<'a, S>) -> Result<Examined<'a, S>, Failure> + Sync {
    move |segment| Ok(Examined::new(segment).seen(from))
}

/// Lets the library judge a checkpoint's next layer: a scrub of zeros that looks at no layer.
fn judge<S: Symbol>(cabinet: &Cabinet, checkpoint: &Checkpoint) -> Result<(), Failure> {
    let next = u32::try_from(checkpoint.step).unwrap_or(u32::MAX);
    let mut record = ScrubRecord::new(next, 0, cabinet.numbers.layers as u32);
    let zeros = vec![S::default(); cabinet.numbers.codeword()];
    (S::CALLS.scrub)(cabinet.description.layout, &zeros, &mut record, 0)
        .map(|_| ())
        .map_err(Failure::refused("scrub"))
}

fn foreign(path: &Path) -> Failure {
    Failure::Contents(format!(
        "{}: the checkpoint of another scrub, or a damaged one, or a tray has been changed since it \
         was written; --reset starts a new scrub",
        path.display()
    ))
}
