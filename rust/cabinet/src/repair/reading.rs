//! Reading the trays of a stripe, one of which may be under repair.

use super::in_groups::own_part;
use super::shares::of_trays;
use super::stripe_repair::{judge, StripeRepair};
use super::{foreign, Repair};
use crate::code::symbol::Symbol;
use crate::failure::Failure;
use crate::files::cabinet::Cabinet;
use crate::files::checkpoint::Checkpoint;
use crate::files::found::Found;
use crate::files::mend::{union, Held};
use crate::files::rebuild;
use crate::files::shape::Shape;
use crate::files::stripe::Stripe;
use gesarumbo::{Kept, Refusal, Tray};
use std::ops::Range;
use std::path::Path;

/// What is read from: the store, and the spare of a lost tray.
pub struct Reading<'a, S> {
    stripe: &'a Stripe<'a, S>,
    lost: Tray,
    /// Whether it is under repair, and its own image not looked at.
    is_lost: bool,
    spare: Vec<S>,
    /// Groups done of the spare.
    pub done: u64,
}

/// What a spare was held against.
pub enum Origin {
    /// There is no checkpoint: no group is done.
    NoFile,
    /// The shares and trays that the spare was made from are those of the folder, or no group is
    /// done, or the stripe is whole and was tested then.
    Known,
    /// They are not all here; tray and cabinet are the right ones.
    NotCompared,
}

/// Where symbols come from.
#[derive(Clone, Copy, PartialEq, Eq)]
pub enum Source {
    /// From a tray of the store.
    Store,
    /// From the spare.
    Spare,
}

impl<'a, S: Symbol> Reading<'a, S> {
    /// Reading while one tray is under repair. Its checkpoint must be of this tray alone and of this
    /// cabinet, and of these shares and trays if they are all here.
    pub fn open(
        cabinet: &Cabinet,
        stripe: &'a Stripe<'a, S>,
        lost: Tray,
        path: &Path,
    ) -> Result<(Reading<'a, S>, Origin), Failure> {
        let repair = |task: &str| Repair::parse(task, cabinet, &[lost]);
        let is_of = |task: &str| repair(task).is_some();
        let found = Checkpoint::read(cabinet.disk, path, is_of, foreign)?;
        let (spare, done, origin) = match &found {
            None => (zeros(stripe), 0, Origin::NoFile),
            Some(checkpoint) if checkpoint.stripe < stripe.number => {
                (zeros(stripe), 0, Origin::Known)
            }
            Some(checkpoint) => {
                let repair = repair(&checkpoint.task).ok_or_else(|| foreign(path))?;
                under_way(cabinet, stripe, &repair, checkpoint, path)?
            }
        };
        let reading = Reading {
            stripe,
            lost,
            is_lost: true,
            spare,
            done,
        };
        Ok((reading, origin))
    }

    /// Reading a tray while none is under repair: another one, not asked for, stands in as lost.
    pub fn of_store(stripe: &'a Stripe<'a, S>, tray: Tray) -> Reading<'a, S> {
        Reading {
            stripe,
            lost: Tray::new(u32::from(tray.number() == 0)),
            is_lost: false,
            spare: zeros(stripe),
            done: 0,
        }
    }

    /// Layers of a tray, where they come from, and what they were held against. A lost one is read
    /// from the spare; any other from the store, where it must be. All trays that are there must fit
    /// together in these layers.
    pub fn read(&self, tray: Tray, layers: Range<u32>) -> Result<(&[S], Source, Held), Failure> {
        let about = format!("tray {tray}, layers {}..{}", layers.start, layers.end);
        let part = self
            .part(tray, layers.clone())
            .map_err(Failure::refused(about))?;
        let source = match tray == self.lost {
            true => Source::Spare,
            false => self.stripe.symbols(tray).map(|_| Source::Store)?,
        };
        let held = self.test(tray, layers)?;
        Ok((part, source, held))
    }

    /// The layers of the lost tray that can be read.
    pub fn readable(&self) -> Vec<u64> {
        let can_be = |layer: &u32| self.part(self.lost, *layer..layer + 1).is_ok();
        let layers = 0..self.stripe.cabinet.numbers.layers as u32;
        layers.filter(can_be).map(u64::from).collect()
    }

    /// The library's answer; for a tray that is not live it is a part of zeros.
    fn part(&self, tray: Tray, layers: Range<u32>) -> Result<&[S], Refusal> {
        let layout = self.stripe.cabinet.description.layout;
        let (store, spare) = (&self.stripe.codeword, &self.spare);
        (S::CALLS.read_part)(layout, store, spare, self.lost, self.done, tray, layers)
    }

    /// Holds these layers of a tray against all others that are there: in each of them a codeword
    /// must have the symbols of the live trays, of this one, and of the spare as far as it is done.
    fn test(&self, tray: Tray, layers: Range<u32>) -> Result<Held, Failure> {
        let stripe = self.stripe;
        let mut erased = stripe.not_live();
        erased.retain(|other| *other != tray);
        let mut codeword = stripe.codeword.clone();
        if tray == self.lost {
            codeword = stripe.codeword_with(&[tray], &self.spare);
        } else if self.is_lost {
            erased = union(&erased, &[self.lost]);
        }
        keep_only(stripe.cabinet, &mut codeword, &layers);
        let checksum = tray != self.lost
            && *stripe.found(tray) == Found::Live
            && stripe.cabinet.geometry.has_checksums();
        match stripe.kept(&codeword, &erased)? {
            Kept::Sound { checks: 0 } if checksum => Ok(Held::Checksums),
            Kept::Sound { checks: 0 } if tray != self.lost && *stripe.found(tray) == Found::Rotten => {
                Err(Failure::Contents(format!(
                    "tray {tray}: its checksum is wrong, and there is no tray to spare to tell which \
                     symbols are; nothing is handed out (see cabinet recover)"
                )))
            }
            Kept::Sound { checks: 0 } => Ok(Held::Nothing),
            Kept::Sound { .. } => Ok(Held::Checks),
            Kept::Bad { layer, .. } => Err(Failure::Contents(format!(
                "tray {tray} and the others do not fit together in layer {layer}: some tray, share \
                 or the spare holds wrong symbols; nothing is handed out (see cabinet test)"
            ))),
        }
    }
}

/// Sets all layers but these to zeros, which meet every check.
fn keep_only<S: Symbol>(cabinet: &Shape, codeword: &mut [S], layers: &Range<u32>) {
    for symbols in codeword.chunks_mut(cabinet.numbers.layers) {
        for (layer, symbol) in (0..).zip(symbols) {
            if !layers.contains(&layer) {
                *symbol = S::default();
            }
        }
    }
}

/// A spare in which no group is done.
fn zeros<S: Symbol>(stripe: &Stripe<S>) -> Vec<S> {
    vec![S::default(); stripe.cabinet.numbers.layers]
}

/// The spare of a stripe that the repair of a checkpoint has done or is at, the groups done of it,
/// and what it was held against.
fn under_way<S: Symbol>(
    cabinet: &Cabinet,
    stripe: &Stripe<S>,
    repair: &Repair,
    checkpoint: &Checkpoint,
    path: &Path,
) -> Result<(Vec<S>, u64, Origin), Failure> {
    let what = repair.rebuilding(cabinet, path.to_path_buf());
    if stripe.number < checkpoint.stripe {
        let spare = rebuild::done_before(cabinet, &what, checkpoint, stripe.number)?;
        let spare = spare.ok_or_else(|| foreign(path))?;
        return Ok((spare, cabinet.numbers.groups as u64, Origin::Known));
    }
    let held = rebuild::held::<S>(cabinet, 1, checkpoint);
    let (_, rest) = held.ok_or_else(|| foreign(path))?;
    let own = own_part(cabinet, 1, checkpoint.step, &rest);
    let (_, spare) = own.ok_or_else(|| foreign(path))?;
    let origin = compare(stripe, repair, checkpoint, path)?;
    Ok((spare, checkpoint.step, origin))
}

/// Holds a checkpoint against the folder's own shares and trays, if they are all here.
fn compare<S: Symbol>(
    stripe: &Stripe<S>,
    repair: &Repair,
    checkpoint: &Checkpoint,
    path: &Path,
) -> Result<Origin, Failure> {
    judge::<S>(&stripe.cabinet.numbers, repair, 0).map_err(|_| foreign(path))?;
    let shares = of_trays(stripe, repair);
    match shares.and_then(|shares| StripeRepair::new(stripe, repair, shares)) {
        _ if checkpoint.step == 0 => Ok(Origin::Known),
        Ok(task) if task.fingerprint() == checkpoint.over => Ok(Origin::Known),
        Ok(_) => Err(foreign(path)),
        Err(_) => Ok(Origin::NotCompared),
    }
}
