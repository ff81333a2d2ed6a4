//! The repair of one stripe's lost trays over a spare, some groups at a time, or all at once where a
//! share may be wrong.

use super::{helpers, Repair};
use crate::code::numbers::Numbers;
use crate::code::symbol::Symbol;
use crate::failure::Failure;
use crate::files::stripe::{fingerprint, Stripe};
use gesarumbo::{Corrected, Refusal, Repaired};

/// What stays fixed over all groups of a stripe.
pub struct StripeRepair<'a, S> {
    numbers: Numbers,
    repair: &'a Repair,
    shares: Vec<S>,
    /// The host rack's trays, with zeros for the lost ones.
    host: Vec<S>,
}

/// Lets the library judge the numbers of a repair before any share is needed: a repair of no group
/// over zeros.
pub fn judge<S: Symbol>(numbers: &Numbers, repair: &Repair, first: u64) -> Result<(), Failure> {
    let (zeros, mut spare) = over_zeros::<S>(numbers, repair);
    zeros.groups(&mut spare, first, 0).map(|_| ())
}

/// The same where a share may be wrong: a repair over zeros, which meet the checks.
pub fn judge_correcting<S: Symbol>(numbers: &Numbers, repair: &Repair) -> Result<(), Failure> {
    let (zeros, mut spare) = over_zeros::<S>(numbers, repair);
    zeros.correcting(&mut spare).map(|_| ())
}

/// A repair over zeros, and a spare for it.
fn over_zeros<'a, S: Symbol>(
    numbers: &Numbers,
    repair: &'a Repair,
) -> (StripeRepair<'a, S>, Vec<S>) {
    let (lost, zero) = (repair.lost.len(), S::default());
    let zeros = StripeRepair {
        numbers: *numbers,
        repair,
        shares: vec![zero; lost * numbers.traffic],
        host: vec![zero; numbers.rack()],
    };
    (zeros, vec![zero; lost * numbers.layers])
}

impl<'a, S: Symbol> StripeRepair<'a, S> {
    /// The repair of a stripe by these shares, of numbers already judged.
    pub fn new(
        stripe: &Stripe<S>,
        repair: &'a Repair,
        shares: Vec<S>,
    ) -> Result<StripeRepair<'a, S>, Failure> {
        let numbers = stripe.cabinet.numbers;
        let rack = numbers.trays_of(repair.host(stripe.cabinet));
        Ok(StripeRepair {
            numbers,
            repair,
            shares,
            host: stripe.joined(rack, &repair.lost)?,
        })
    }

    /// What the shares and the sound trays beside the lost ones are known by.
    pub fn fingerprint(&self) -> u64 {
        fingerprint(&[&self.shares[..], &self.host].concat())
    }

    /// Does some groups from one on.
    pub fn groups(&self, spare: &mut [S], first: u64, budget: u64) -> Result<Repaired, Failure> {
        let Repair { lost, helpers } = self.repair;
        let (layout, shares, host) = (self.numbers.layout, &self.shares, &self.host);
        let done =
            (S::CALLS.repair_many)(layout, lost, helpers, shares, host, spare, first, budget);
        self.answered(done)
    }

    /// Does one group of one lost tray by a card.
    pub fn by_card(&self, spare: &mut [S], group: u64, card: &[S]) -> Result<Repaired, Failure> {
        let Repair { lost, helpers } = self.repair;
        let (layout, shares, host) = (self.numbers.layout, &self.shares, &self.host);
        let done =
            (S::CALLS.card_repair)(layout, lost[0], helpers, card, shares, host, spare, group);
        self.answered(done)
    }

    /// Does all groups of one lost tray, though a share may be wrong.
    pub fn correcting(&self, spare: &mut [S]) -> Result<Corrected, Failure> {
        let Repair { lost, helpers } = self.repair;
        let (layout, shares, host) = (self.numbers.layout, &self.shares, &self.host);
        self.answered((S::CALLS.repair_correcting)(
            layout, lost[0], helpers, shares, host, spare,
        ))
    }

    fn answered<T>(&self, done: Result<T, Refusal>) -> Result<T, Failure> {
        done.map_err(|refusal| {
            let (names, _) = self.repair.names();
            let known = helpers::known(&self.numbers, self.repair, refusal);
            let known = known.map(|words| format!(": {words}")).unwrap_or_default();
            Failure::refused(format!("repair of {names}{known}"))(refusal)
        })
    }
}
