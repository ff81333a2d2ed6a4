//! The repair of a lost tray where one helper's share may be wrong: a stripe at a time, with the
//! rack of the wrong share named, and a test at the end of each.

use super::in_groups::say_recovered;
use super::ready::{settle, Ready};
use super::shares::Shares;
use super::stripe_repair::StripeRepair;
use super::tally::Tally;
use super::{foreign, spare_path, Repair};
use crate::code::symbol::Symbol;
use crate::failure::{Failure, Outcome};
use crate::files::cabinet::Cabinet;
use crate::files::checkpoint::Checkpoint;
use crate::files::mend::union;
use crate::files::rebuild::Rebuild;
use crate::files::stripe::Stripe;
use crate::files::survey::Unused;
use crate::terminal::progress;
use crate::terminal::screen::{Paint, Screen};
use crate::terminal::words::{count, hanging};
use gesarumbo::{Corrected, Kept, Tray};

/// A repair as far as it has come.
struct Work<'a, S> {
    repair: &'a Repair,
    rebuild: Rebuild<'a, S>,
    tally: Tally,
    /// The last stripe worked on before a cut, and what from.
    last: Option<(u32, u64)>,
}

/// The repair of one tray by these shares, of numbers already judged: the tray's file is written,
/// unless it does not fit to the others.
pub fn repair<S: Symbol>(
    cabinet: &Cabinet,
    repair: &Repair,
    mut shares: Shares,
    screen: &mut Screen,
) -> Result<Outcome, Failure> {
    let mut work = open::<S>(cabinet, repair, screen)?;
    let mut unused = None;
    let from = work.last.map_or(0, |(stripe, _)| stripe);
    shares.skip_to::<S>(cabinet, repair, from)?;
    for segment in cabinet.segments::<S>(cabinet.geometry.segment_of(from)) {
        let segment = segment?;
        Unused::begin_or_say(&mut unused, &segment, screen);
        let ready = Ready::of(segment, repair, shares.are_of_trays())?;
        ready.tell(&mut work.tally);
        let stripes = ready.segment.stripes.clone();
        for number in stripes.filter(|number| *number >= from) {
            work.stripe(&ready, number, &mut shares, screen)?;
        }
    }
    let unused = union(&Unused::trays(unused), &repair.lost);
    work.tally.faults.add_files(cabinet, &unused);
    say_shares(cabinet, repair, &work.tally, screen);
    work.tally.faults.say(cabinet, screen);
    say_recovered(work.tally.recovered, screen);
    work.rebuild.publish()?;
    work.tally.report(screen);
    let stripes = cabinet.description.stripes as usize;
    screen.fact("crossed", cabinet.numbers.traffic * stripes);
    say_fit(cabinet, repair.lost[0], &work.tally, screen);
    Ok(work.tally.outcome())
}

/// The repair as its checkpoint has it; a new one if there is none, or if what it has written is not
/// as it was written.
fn open<'a, S: Symbol>(
    cabinet: &'a Cabinet<'a>,
    repair: &'a Repair,
    screen: &mut Screen,
) -> Result<Work<'a, S>, Failure> {
    let path = spare_path(cabinet, &repair.lost);
    let task = repair.task(cabinet);
    let found = Checkpoint::read(cabinet.disk, &path, |of| of == task, foreign)?;
    let what = || repair.rebuilding(cabinet, path.clone());
    if let Some(checkpoint) = found {
        if let Some((rebuild, rest)) = Rebuild::go_on(cabinet, what(), &checkpoint)? {
            let tally = Tally::parse(&rest).filter(|(_, rest)| rest.is_empty());
            let (tally, _) = tally.ok_or_else(|| foreign(&path))?;
            progress::goes_on(cabinet, rebuild.next, screen);
            return Ok(Work {
                repair,
                rebuild,
                tally,
                last: Some((checkpoint.last(), checkpoint.over)),
            });
        }
        let words = screen.paint(Paint::Warning, "is not as it was written");
        screen.line(format!("  the work file {words}: the repair begins anew"));
    }
    Ok(Work {
        repair,
        rebuild: Rebuild::begin(cabinet, what())?,
        tally: Tally::default(),
        last: None,
    })
}

impl<S: Symbol> Work<'_, S> {
    /// Does one stripe, unless it was done before the cut.
    fn stripe(
        &mut self,
        ready: &Ready<S>,
        number: u32,
        shares: &mut Shares,
        screen: &mut Screen,
    ) -> Result<(), Failure> {
        let stripe = ready.stripe(number);
        let task = shares
            .next(&stripe, self.repair)
            .and_then(|shares| StripeRepair::new(&stripe, self.repair, shares))
            .map_err(stripe.named())?;
        let last = self.last.take();
        if last.is_some_and(|(_, over)| over != task.fingerprint()) {
            return Err(foreign(self.rebuild.path()));
        }
        if number < self.rebuild.next {
            return Ok(());
        }
        let lost = self.repair.lost[0];
        let spare = repair_stripe(ready, &stripe, &task, lost, &mut self.tally);
        let spare = spare.map_err(stripe.named())?;
        self.rebuild.write([&spare[..]].into_iter())?;
        progress::stripes(stripe.cabinet, self.rebuild.next, screen);
        match self.rebuild.is_due() {
            true => self
                .rebuild
                .save(0, task.fingerprint(), self.tally.lines().as_bytes()),
            false => Ok(()),
        }
    }
}

/// The lost tray of one stripe, which must fit to the others or to those without the rack named.
fn repair_stripe<S: Symbol>(
    ready: &Ready<S>,
    stripe: &Stripe<S>,
    task: &StripeRepair<S>,
    lost: Tray,
    tally: &mut Tally,
) -> Result<Vec<S>, Failure> {
    let mut spare = vec![S::default(); stripe.cabinet.numbers.layers];
    let Corrected { rack, .. } = task.correcting(&mut spare)?;
    rack.into_iter().for_each(|rack| tally.add_wrong(rack));
    if let (Some(rack), Kept::Bad { .. }) = (rack, stripe.test_with(&[lost], &spare)?) {
        if let Kept::Sound { checks: 1.. } = stripe.fits_without(rack, lost, &spare)? {
            tally.add_unfit(rack);
            return Ok(spare);
        }
    }
    match settle(ready, stripe, &[lost], (&mut spare, None), tally)? {
        None => Ok(spare),
        Some(_) => Err(Failure::Contents(format!(
            "tray {lost} and the others do not fit together: some tray or more than one share \
             holds wrong symbols; no image is written"
        ))),
    }
}

/// What crossed, and whose shares were wrong.
fn say_shares(cabinet: &Cabinet, repair: &Repair, tally: &Tally, screen: &mut Screen) {
    let stripes = cabinet.description.stripes;
    let crossed = cabinet.numbers.traffic * stripes as usize;
    let (racks, crossed) = (
        count(repair.helpers.len(), "rack"),
        count(crossed, "symbol"),
    );
    screen.line(format!(
        "  {racks} send shares, {crossed} in all; one may be wrong"
    ));
    if tally.wrong.is_empty() {
        screen.line("  every share is right");
    }
    for (rack, wrong) in &tally.wrong {
        let words = screen.paint(Paint::Warning, &format!("rack {rack} is stale"));
        let rest = match stripes {
            1 => ": its share is wrong, and was set right by the others".to_string(),
            _ => {
                let stripes = count(stripes as usize, "stripe");
                format!(" in {wrong} of {stripes}: its share is wrong there")
            }
        };
        screen.line(format!("  {words}{rest}"));
    }
}

/// Which trays are sound together.
fn say_fit(cabinet: &Cabinet, lost: Tray, tally: &Tally, screen: &mut Screen) {
    let racks: Vec<String> = tally.unfit.keys().map(u32::to_string).collect();
    let racks = match &racks[..] {
        [] => {
            let tested = tally.tested(cabinet, screen);
            return screen.line(format!("  tray {lost} is whole; {tested}"));
        }
        [rack] => format!("rack {rack}"),
        racks => format!("racks {}", racks.join(", ")),
    };
    let sound = screen.paint(Paint::Good, "sound");
    screen.line(format!(
        "  tray {lost} is whole; all trays but those of {racks} are {sound} together"
    ));
    let words =
        format!("trays of {racks} hold wrong symbols: bring them back with cabinet recover");
    screen.line(hanging("  ", &words));
}
