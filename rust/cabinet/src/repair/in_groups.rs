//! A repair some groups at a time, stripe after stripe, which can be cut anywhere.

use super::meter::Meter;
use super::ready::{settle, Ready};
use super::shares::Shares;
use super::stripe_repair::StripeRepair;
use super::tally::Tally;
use super::{foreign, Repair};
use crate::code::symbol::Symbol;
use crate::failure::{Failure, Outcome};
use crate::files::cabinet::Cabinet;
use crate::files::checkpoint::Checkpoint;
use crate::files::mend::union;
use crate::files::rebuild::Rebuild;
use crate::files::segment::Segment;
use crate::files::shape::Shape;
use crate::files::stripe::Stripe;
use crate::files::survey::{Met, Unused};
use crate::terminal::screen::{Paint, Screen};
use gesarumbo::Kept;
use std::ops::Range;
use std::path::{Path, PathBuf};

/// A repair as far as it has come.
pub struct GroupRepair<'a, S> {
    cabinet: &'a Cabinet<'a>,
    repair: &'a Repair,
    rebuild: Rebuild<'a, S>,
    /// The stripe under repair, the lost trays one after another.
    spare: Vec<S>,
    /// Groups done of this stripe, from group 0.
    done: u64,
    /// What the last stripe was worked on from, where this is to be looked at.
    over: Option<u64>,
    tally: Tally,
    /// The trays that were met and cannot be used.
    unused: Option<Unused>,
}

/// What a run of groups is done with.
pub struct Means<'r, S> {
    pub shares: &'r mut Shares,
    pub cards: &'r [Vec<S>],
}

impl<'a, S: Symbol> GroupRepair<'a, S> {
    /// The repair as its checkpoint has it; a new one if there is none, or if what it has written is
    /// not as it was written.
    pub fn open(
        cabinet: &'a Cabinet<'a>,
        repair: &'a Repair,
        path: PathBuf,
        screen: &mut Screen,
    ) -> Result<GroupRepair<'a, S>, Failure> {
        let task = repair.task(cabinet);
        let found = Checkpoint::read(cabinet.disk, &path, |of| of == task, foreign)?;
        let what = || repair.rebuilding(cabinet, path.clone());
        let Some(checkpoint) = found else {
            return GroupRepair::begin(cabinet, repair, path);
        };
        let Some((rebuild, rest)) = Rebuild::go_on(cabinet, what(), &checkpoint)? else {
            let words = screen.paint(Paint::Warning, "is not as it was written");
            screen.line(format!("  the work file {words}: the repair begins anew"));
            return GroupRepair::begin(cabinet, repair, path);
        };
        let own = own_part(cabinet, repair.lost.len(), checkpoint.step, &rest);
        let (tally, spare) = own.ok_or_else(|| foreign(&path))?;
        Ok(GroupRepair {
            cabinet,
            repair,
            rebuild,
            spare,
            done: checkpoint.step,
            over: Some(checkpoint.over),
            tally,
            unused: None,
        })
    }

    fn begin(
        cabinet: &'a Cabinet<'a>,
        repair: &'a Repair,
        path: PathBuf,
    ) -> Result<GroupRepair<'a, S>, Failure> {
        let what = repair.rebuilding(cabinet, path);
        Ok(GroupRepair {
            cabinet,
            repair,
            rebuild: Rebuild::begin(cabinet, what)?,
            spare: vec![S::default(); repair.lost.len() * cabinet.numbers.layers],
            done: 0,
            over: None,
            tally: Tally::default(),
            unused: None,
        })
    }

    /// Groups of a stripe.
    fn groups(&self) -> u64 {
        self.cabinet.numbers.groups as u64
    }

    /// The first group of the stripe under repair, counted over all stripes.
    pub fn stripe_start(&self) -> u64 {
        u64::from(self.rebuild.next) * self.groups()
    }

    /// Groups done of all stripes together.
    pub fn position(&self) -> u64 {
        self.stripe_start() + self.done
    }

    /// The stripe under repair.
    pub fn stripe_number(&self) -> u32 {
        self.rebuild.next
    }

    pub fn is_whole(&self) -> bool {
        self.rebuild.next == self.cabinet.description.stripes
    }

    pub fn path(&self) -> &Path {
        self.rebuild.path()
    }

    /// Does the groups of a run, counted over all stripes, by shares or by cards, and keeps a
    /// checkpoint where the repair is not whole then.
    pub fn work(
        &mut self,
        means: &mut Means<S>,
        run: Range<u64>,
        screen: &mut Screen,
    ) -> Result<(), Failure> {
        let (cabinet, repair) = (self.cabinet, self.repair);
        let mut meter = Meter::new(cabinet, repair.lost.len(), run.clone());
        let from = match (self.over, self.done) {
            (Some(_), 0) => self.rebuild.next.saturating_sub(1),
            _ => self.rebuild.next,
        };
        means.shares.skip_to::<S>(cabinet, repair, from)?;
        let is_of_trays = means.shares.are_of_trays();
        let whole = self.whole_stripes(means, &run);
        let last = (run.end.max(run.start + 1) - 1) / self.groups();
        let last = self.rebuild.next.max(last as u32);
        let last = last.min(cabinet.description.stripes - 1);
        let segments = cabinet.geometry.segment_of(from)..cabinet.geometry.segment_of(last) + 1;
        let mut is_over = false;
        cabinet.over(
            segments,
            get_ready(repair, is_of_trays, whole),
            |(met, ready)| {
                if is_over {
                    return Ok(());
                }
                Unused::begin_or_say_met(&mut self.unused, cabinet, &met, screen);
                let mut ready = ready?;
                ready.tell(&mut self.tally);
                let stripes = ready.segment.stripes.clone();
                for number in stripes.filter(|number| *number >= from) {
                    let is_done = number < self.rebuild.next;
                    self.stripe(&mut ready, number, means, &mut meter, screen)?;
                    if meter.is_over() && !is_done {
                        is_over = true;
                        return Ok(());
                    }
                }
                Ok(())
            },
        )
    }

    /// The stripes that a run does whole by shares of the trays: they can be done beside others.
    fn whole_stripes(&self, means: &Means<S>, run: &Range<u64>) -> Range<u32> {
        let groups = self.groups();
        let is_plain = means.shares.are_of_trays() && means.cards.is_empty();
        match is_plain && self.cabinet.description.stripes > 1 {
            true => run.start.div_ceil(groups) as u32..(run.end / groups) as u32,
            false => 0..0,
        }
    }

    /// Does the groups of one stripe, as far as the run goes.
    fn stripe(
        &mut self,
        ready: &mut Ready<S>,
        number: u32,
        means: &mut Means<S>,
        meter: &mut Meter,
        screen: &mut Screen,
    ) -> Result<(), Failure> {
        let ahead = ready.take_ahead(number);
        let ready = &*ready;
        let stripe = ready.stripe(number);
        let shares = match &ahead {
            Some(ahead) => Ok(ahead.shares.clone()),
            None => means.shares.next(&stripe, self.repair),
        };
        let task = shares.and_then(|shares| StripeRepair::new(&stripe, self.repair, shares));
        let task = task.map_err(stripe.named())?;
        let over = self.over.take();
        if over.is_some_and(|over| over != task.fingerprint()) {
            return Err(foreign(self.path()).at(&self.cabinet.place(number)));
        }
        if number < self.rebuild.next {
            return Ok(());
        }
        let kept = ahead.as_ref().map(|ahead| ahead.kept);
        match ahead {
            Some(ahead) => {
                meter.enter(number);
                self.spare = ahead.spare;
                self.done = ahead.done.groups;
                meter.advance(&ahead.done, screen);
            }
            None => self
                .groups_of(&task, number, means.cards, meter, screen)
                .map_err(stripe.named())?,
        }
        match self.done {
            // Nothing was to be done, and the checkpoint of the stripe before stays.
            0 if number > 0 => Ok(()),
            done if done == self.groups() => self
                .complete(ready, &stripe, (&task, kept), meter.is_over())
                .map_err(stripe.named()),
            _ => self.save(task.fingerprint()),
        }
    }

    /// Does the groups of a stripe by cards, or by as many as a line of the meter has.
    fn groups_of(
        &mut self,
        task: &StripeRepair<S>,
        number: u32,
        cards: &[Vec<S>],
        meter: &mut Meter,
        screen: &mut Screen,
    ) -> Result<(), Failure> {
        let first = meter.enter(number);
        // Cards for some groups only are for this stripe: the library refuses one past its last.
        let all = cards.is_empty() || is_full_set(self.cabinet, cards, first);
        loop {
            let group = meter.group();
            let done = match cards.get((group - first) as usize) {
                Some(card) => task.by_card(&mut self.spare, group, card)?,
                None => task.groups(&mut self.spare, group, meter.budget())?,
            };
            self.done = self.done.max(group + done.groups);
            meter.advance(&done, screen);
            if meter.is_over() || (all && meter.is_past()) {
                return Ok(());
            }
        }
    }

    /// Tests the finished trays of a stripe with all others that are there, and writes them; with a
    /// checkpoint, if one is due or this was the last stripe of the run.
    fn complete(
        &mut self,
        ready: &Ready<S>,
        stripe: &Stripe<S>,
        (task, kept): (&StripeRepair<S>, Option<Kept>),
        is_last: bool,
    ) -> Result<(), Failure> {
        let lost = &self.repair.lost;
        let spare = (&mut self.spare[..], kept);
        if let Some(layer) = settle(ready, stripe, lost, spare, &mut self.tally)? {
            self.save(task.fingerprint())?;
            let ((names, _), place) = (self.repair.names(), self.path().display());
            return Err(Failure::Contents(format!(
                "{names} and the others do not fit together (layer {layer}): some tray or share \
                 holds wrong symbols; no image is written, the spare is kept in {place}"
            )));
        }
        self.rebuild
            .write(self.spare.chunks(self.cabinet.numbers.layers))?;
        self.spare.fill(S::default());
        self.done = 0;
        match self.rebuild.is_due() || (is_last && !self.is_whole()) {
            true => self.save(task.fingerprint()),
            false => Ok(()),
        }
    }

    fn save(&mut self, over: u64) -> Result<(), Failure> {
        let mut rest = self.tally.lines().into_bytes();
        rest.extend(S::to_bytes(&self.spare));
        self.rebuild.save(self.done, over, &rest)
    }

    /// Says whether all trays together are sound, and puts the new files in their places.
    pub fn finish(mut self, screen: &mut Screen) -> Result<Outcome, Failure> {
        let (names, are) = self.repair.names();
        let unused = union(&Unused::trays(self.unused.take()), &self.repair.lost);
        self.tally.faults.add_files(self.cabinet, &unused);
        let tested = self.tally.tested(self.cabinet, screen);
        let outcome = self.tally.outcome();
        self.tally.faults.say(self.cabinet, screen);
        say_recovered(self.tally.recovered, screen);
        self.rebuild.publish()?;
        self.tally.report(screen);
        let crossed = self.repair.lost.len() * self.cabinet.numbers.traffic;
        screen.fact(
            "crossed",
            crossed * self.cabinet.description.stripes as usize,
        );
        screen.line(format!("  {names} {are} whole; {tested}"));
        Ok(outcome)
    }
}

/// Makes a segment ready, with these of its stripes done ahead.
fn get_ready<'a, 'r, S: Symbol>(
    repair: &'r Repair,
    is_of_trays: bool,
    whole: Range<u32>,
) -> impl Fn(Segment<'a, S>) -> Result<(Met, Made<'a, S>), Failure> + Sync + use<'a, 'r, S> {
    move |segment| {
        let met = Met::of(&segment);
        let ready = Ready::of(segment, repair, is_of_trays);
        let ready = ready.map(|ready| ready.with_ahead(repair, &whole));
        Ok((met, ready))
    }
}

/// A segment that is ready, or why it is not.
type Made<'a, S> = Result<Ready<'a, S>, Failure>;

/// Says in how many stripes shares did not do.
pub fn say_recovered(stripes: u32, screen: &mut Screen) {
    if stripes > 0 {
        let stripes = crate::terminal::words::count(stripes as usize, "stripe");
        let words = screen.paint(Paint::Warning, "do not fit");
        screen.line(format!(
            "  shares {words} in {stripes}: recovered from the trays there"
        ));
    }
}

/// Whether there is a card for each group of a stripe that is about to begin: then they are for all
/// stripes.
pub fn is_full_set<S>(cabinet: &Shape, cards: &[Vec<S>], first: u64) -> bool {
    first == 0 && cards.len() == cabinet.numbers.groups
}

/// The tally and the spare of a checkpoint, if its place is one of this cabinet.
pub fn own_part<S: Symbol>(
    cabinet: &Shape,
    lost: usize,
    step: u64,
    rest: &[u8],
) -> Option<(Tally, Vec<S>)> {
    let (tally, spare) = Tally::parse(rest)?;
    let spare: Vec<S> = S::from_bytes(spare)?;
    let fits = step <= cabinet.numbers.groups as u64;
    let fits = fits && spare.len() == lost * cabinet.numbers.layers;
    fits.then_some((tally, spare))
}
