//! A segment made ready for a repair: the library has judged the racks that are used, and where one
//! of their trays has a wrong checksum, its stripes are put right first. Where another tray has one,
//! it is named.

use super::shares::of_trays;
use super::stripe_repair::StripeRepair;
use super::tally::Tally;
use super::Repair;
use crate::code::symbol::Symbol;
use crate::failure::Failure;
use crate::files::mend::{mend, Held, Mended};
use crate::files::segment::Segment;
use crate::files::stripe::Stripe;
use gesarumbo::{Kept, Repaired, Tray};
use std::collections::BTreeMap;
use std::ops::Range;

/// A segment, and its stripes put right where that was needed.
pub struct Ready<'a, S> {
    pub segment: Segment<'a, S>,
    /// What a mending gave, where a tray has a wrong checksum.
    mended: Option<Result<Vec<Mended<S>>, Failure>>,
    /// Whether a tray that is used has one.
    is_needed: bool,
    /// Checks that cannot fail: trays that are worked out from the others fit to them.
    spent: usize,
    /// The stripes that were done ahead, by their numbers.
    ahead: BTreeMap<u32, Ahead<S>>,
}

/// A whole stripe that was done by shares of the trays.
pub struct Ahead<S> {
    pub shares: Vec<S>,
    pub spare: Vec<S>,
    pub done: Repaired,
    pub kept: Kept,
}

impl<'a, S: Symbol> Ready<'a, S> {
    /// Judges the host rack but for the lost trays and, where shares are worked out from trays, the
    /// helper racks.
    pub fn of(
        mut segment: Segment<'a, S>,
        repair: &Repair,
        is_of_trays: bool,
    ) -> Result<Ready<'a, S>, Failure> {
        let cabinet = segment.cabinet;
        segment.leave_out(&repair.lost);
        let mut racks = vec![repair.host(cabinet)];
        if is_of_trays {
            racks.extend(&repair.helpers);
        }
        let judge = |rack: &_| segment.judge_rack(*rack, &repair.lost);
        racks.iter().try_for_each(judge).map_err(segment.named())?;
        let rotten = segment.rotten();
        let mut used = racks
            .iter()
            .flat_map(|rack| cabinet.numbers.trays_of(*rack));
        let is_needed = used.any(|tray| rotten.contains(&tray));
        let mended = match rotten.is_empty() {
            true => None,
            false => match mend(&segment, &repair.lost) {
                Err(failure) if is_needed => return Err(failure),
                mended => Some(mended),
            },
        };
        let spent = match is_of_trays && !cabinet.geometry.has_checksums() {
            true => repair.lost.len(),
            false => 0,
        };
        Ok(Ready {
            segment,
            mended,
            is_needed,
            spent,
            ahead: BTreeMap::new(),
        })
    }

    /// Counts the faults that were found.
    pub fn tell(&self, tally: &mut Tally) {
        match &self.mended {
            Some(Ok(mended)) => tally.faults.add(&self.segment, mended),
            Some(Err(_)) => tally.faults.add_unsure(&self.segment),
            None => {}
        }
    }

    /// A stripe, as it was read or put right.
    pub fn stripe(&self, number: u32) -> Stripe<'_, S> {
        let mut stripe = self.segment.stripe(number);
        if let (Some(Ok(mended)), true) = (&self.mended, self.is_needed) {
            let place = (number - self.segment.stripes.start) as usize;
            stripe.codeword.clone_from(&mended[place].codeword);
        }
        stripe
    }

    /// The same with these of its stripes done, each by all groups at once. What cannot be done is
    /// left, to be said when its turn comes.
    pub fn with_ahead(mut self, repair: &Repair, stripes: &Range<u32>) -> Ready<'a, S> {
        for number in self.segment.stripes.clone() {
            if stripes.contains(&number) {
                let ahead = done_ahead(&self.stripe(number), repair);
                self.ahead.extend(ahead.ok().map(|ahead| (number, ahead)));
            }
        }
        self
    }

    /// A stripe that was done ahead.
    pub fn take_ahead(&mut self, number: u32) -> Option<Ahead<S>> {
        self.ahead.remove(&number)
    }
}

/// All groups of a stripe, and how the trays fit to the others then.
fn done_ahead<S: Symbol>(stripe: &Stripe<S>, repair: &Repair) -> Result<Ahead<S>, Failure> {
    let shares = of_trays(stripe, repair)?;
    let task = StripeRepair::new(stripe, repair, shares.clone())?;
    let numbers = &stripe.cabinet.numbers;
    let mut spare = vec![S::default(); repair.lost.len() * numbers.layers];
    let done = task.groups(&mut spare, 0, numbers.groups as u64)?;
    let kept = stripe.test_with(&repair.lost, &spare)?;
    Ok(Ahead {
        shares,
        spare,
        done,
        kept,
    })
}

/// Holds the lost trays of a stripe against all trays that are there. Where they do not fit, they
/// are recovered from these, if that can be tested, and what was wrong is counted. Gives the first
/// bad layer where it cannot.
pub fn settle<S: Symbol>(
    ready: &Ready<S>,
    stripe: &Stripe<S>,
    lost: &[Tray],
    (spare, kept): (&mut [S], Option<Kept>),
    tally: &mut Tally,
) -> Result<Option<u32>, Failure> {
    let kept = kept.map_or_else(|| stripe.test_with(lost, spare), Ok)?;
    let bad = match kept {
        Kept::Sound { checks } if checks as usize <= ready.spent => {
            tally.untested += 1;
            return Ok(None);
        }
        Kept::Sound { .. } => return Ok(None),
        Kept::Bad { layer, .. } => layer.number(),
    };
    let place = (stripe.number - ready.segment.stripes.start) as usize;
    let Ok(mended) = mend(&ready.segment, lost) else {
        return Ok(Some(bad));
    };
    let one = &mended[place];
    if one.held != Held::Checks {
        return Ok(Some(bad));
    }
    let layers = stripe.cabinet.numbers.layers;
    for (tray, spare) in lost.iter().zip(spare.chunks_mut(layers)) {
        let symbols = &one.codeword[tray.number() as usize * layers..][..layers];
        spare.copy_from_slice(symbols);
    }
    tally.recovered += 1;
    tally.faults.add_wrong(stripe.number, &one.wrong);
    Ok(None)
}
