//! A repair by shares of the cabinet's own trays from its beginning, or from its checkpoint on, to
//! its end.

use super::helpers::checkpoint;
use super::in_groups::{GroupRepair, Means};
use super::shares::Shares;
use super::stripe_repair::{judge, judge_correcting};
use super::{correcting, spare_path, Repair};
use crate::code::symbol::Symbol;
use crate::failure::{Failure, Outcome};
use crate::files::cabinet::Cabinet;
use crate::files::checkpoint;
use crate::terminal::progress;
use crate::terminal::screen::Screen;

/// Brings the lost trays back. A checkpoint that cannot be gone on with is removed, and the repair
/// begins anew.
pub fn by_shares<S: Symbol>(
    cabinet: &Cabinet,
    repair: &Repair,
    screen: &mut Screen,
) -> Result<Outcome, Failure> {
    let path = spare_path(cabinet, &repair.lost);
    let found = checkpoint(cabinet, &path)?;
    let is_of_this = found.is_some_and(|found| found.task == repair.task(cabinet));
    if !is_of_this {
        checkpoint::remove(cabinet.disk, &path)?;
        return attempt::<S>(cabinet, repair, screen);
    }
    match attempt::<S>(cabinet, repair, screen) {
        // The trays may be others than those that it was begun with.
        Err(Failure::Contents(_)) => {
            checkpoint::remove(cabinet.disk, &path)?;
            attempt::<S>(cabinet, repair, screen)
        }
        ended => ended,
    }
}

fn attempt<S: Symbol>(
    cabinet: &Cabinet,
    repair: &Repair,
    screen: &mut Screen,
) -> Result<Outcome, Failure> {
    let mut shares = Shares::OfTrays;
    if cabinet.numbers.errors > 0 {
        judge_correcting::<S>(&cabinet.numbers, repair)?;
        return correcting::repair::<S>(cabinet, repair, shares, screen);
    }
    judge::<S>(&cabinet.numbers, repair, 0)?;
    let path = spare_path(cabinet, &repair.lost);
    let mut work = GroupRepair::<S>::open(cabinet, repair, path, screen)?;
    let first = work.position();
    if first > 0 {
        progress::goes_on(cabinet, work.stripe_number(), screen);
    }
    let total = u64::from(cabinet.description.stripes) * cabinet.numbers.groups as u64;
    let mut means = Means {
        shares: &mut shares,
        cards: &[],
    };
    work.work(&mut means, first..total, screen)?;
    work.finish(screen)
}
