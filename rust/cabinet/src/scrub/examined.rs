//! A segment under test: which layers of its stripes are bad, and which trays are wrong there.

use crate::code::symbol::Symbol;
use crate::failure::Failure;
use crate::files::mend::{mend, Mended};
use crate::files::segment::Segment;
use crate::files::stripe::Stripe;
use gesarumbo::{Kept, ScrubRecord, Tray};
use std::collections::VecDeque;

/// A segment, and its stripes put right where something is wrong.
pub struct Examined<'a, S> {
    pub segment: Segment<'a, S>,
    /// What a mending gave, once one was needed.
    pub mended: Option<Result<Vec<Mended<S>>, Failure>>,
    /// What was found in stripes that have been looked at, from the first of these on.
    seen: VecDeque<Result<Seen, Failure>>,
}

/// What was found in a stripe.
pub struct Seen {
    /// The bad layers, rising. Where trays are missing and the stripe cannot be put right, the first
    /// of them.
    pub bad: Vec<u32>,
    /// How many checks of each layer were left to test with.
    pub checks: u32,
}

impl<'a, S: Symbol> Examined<'a, S> {
    pub fn new(segment: Segment<'a, S>) -> Examined<'a, S> {
        let mut examined = Examined {
            segment,
            mended: None,
            seen: VecDeque::new(),
        };
        let first = examined.segment.stripes.start;
        if !examined.segment.stripe(first).rotten().is_empty() {
            examined.mend();
        }
        examined
    }

    fn mend(&mut self) {
        if self.mended.is_none() {
            self.mended = Some(mend(&self.segment, &[]));
        }
    }

    /// The same with all stripes from one on looked at.
    pub fn seen(mut self, from: u32) -> Examined<'a, S> {
        let stripes = self.segment.stripes.clone();
        for number in stripes.filter(|number| *number >= from) {
            let seen = self.look(number);
            self.seen.push_back(seen);
        }
        self
    }

    /// What was found in the next stripe, which is this one.
    pub fn see(&mut self, number: u32) -> Result<Seen, Failure> {
        match self.seen.pop_front() {
            Some(seen) => seen,
            None => self.look(number),
        }
    }

    /// Tests one stripe: all trays that are there, those with a wrong checksum too.
    fn look(&mut self, number: u32) -> Result<Seen, Failure> {
        let stripe = self.segment.stripe(number);
        let missing = stripe.missing();
        let (layer, checks) = match stripe.kept(&stripe.codeword, &missing)? {
            Kept::Sound { checks } if checks > 0 => {
                let bad = Vec::new();
                return Ok(Seen { bad, checks });
            }
            Kept::Sound { checks } => (None, checks),
            Kept::Bad { layer, checks } => (Some(layer.number()), checks),
        };
        if layer.is_some() {
            self.mend();
        }
        let place = (number - self.segment.stripes.start) as usize;
        let stripe = self.segment.stripe(number);
        let bad = match (&self.mended, layer) {
            (Some(Ok(mended)), _) => differing(&stripe, &mended[place]),
            (_, Some(_)) if missing.is_empty() => broken(&stripe)?,
            (_, layer) => layer.into_iter().collect(),
        };
        Ok(Seen { bad, checks })
    }
}

/// The layers in which a tray that is there is not what it should be.
fn differing<S: Symbol>(stripe: &Stripe<S>, mended: &Mended<S>) -> Vec<u32> {
    let layers = stripe.cabinet.numbers.layers;
    let differs = |layer: &u32| {
        mended.wrong.iter().any(|tray: &Tray| {
            let at = tray.number() as usize * layers + *layer as usize;
            mended.codeword[at] != stripe.codeword[at]
        })
    };
    (0..layers as u32).filter(differs).collect()
}

/// The layers of a stripe with all its trays that the library counts as bad.
fn broken<S: Symbol>(stripe: &Stripe<S>) -> Result<Vec<u32>, Failure> {
    let layers = stripe.cabinet.numbers.layers as u32;
    let mut bad = Vec::new();
    for layer in 0..layers {
        let mut record = ScrubRecord::new(layer, 0, layers);
        let layout = stripe.cabinet.description.layout;
        (S::CALLS.scrub)(layout, &stripe.codeword, &mut record, 1)
            .map_err(Failure::refused("scrub"))?;
        if record.bad > 0 {
            bad.push(layer);
        }
    }
    Ok(bad)
}
