//! Repairing one lost tray from two other racks.

use super::field::{multiply, power};
use super::{above, h, has_rack, has_tray, point, points_of, polynomial, HELPERS, SIZE};
use crate::layout::{Rack, Tray};
use crate::refusal::{refuse, rising, Refusal};

/// What a repair reports, and what the spare holds afterwards.
#[derive(Clone, Debug, PartialEq, Eq)]
pub struct Repaired {
    pub crossed: u32,
    pub spare: Vec<u8>,
}

/// What a repair goes by: the lost tray, the helpers and their shares, and the
/// host rack's values.
#[derive(Clone, Copy)]
pub struct Given<'a> {
    pub lost: Tray,
    pub helpers: &'a [Rack],
    pub shares: &'a [u8],
    pub host: &'a [u8],
}

pub fn repair(given: Given, spare: &[u8]) -> Result<Repaired, Refusal> {
    let lengths = [given.shares.len(), given.host.len(), spare.len()];
    let host = Rack(given.lost.0 / SIZE as u32);
    refuse(&[
        (Refusal::Length, lengths != [HELPERS, SIZE, 1]),
        (Refusal::Number, outside(given)),
        (Refusal::Order, !rising(given.helpers)),
        (Refusal::Count, given.helpers.len() != HELPERS),
        (Refusal::Host, given.helpers.contains(&host)),
    ])?;
    refuse(&[(Refusal::Survivors, given.shares[0] != given.shares[1])])?;
    Ok(Repaired {
        crossed: HELPERS as u32,
        spare: vec![lost_value(given)],
    })
}

/// Whether a number is outside the box or a value above 15. The lost tray's own
/// value is not looked at.
fn outside(given: Given) -> bool {
    let lost = given.lost.0 as usize % SIZE;
    let others = (0..).zip(given.host).filter(|(place, _)| *place != lost);
    let mut looked_at = given.shares.iter().chain(others.map(|(_, value)| value));
    !has_tray(given.lost)
        || given.helpers.iter().any(|&rack| !has_rack(rack))
        || looked_at.any(|&value| above(value))
}

/// The value with which the host rack's top coefficient is the one that the
/// shares give: their polynomial in h, of degree at most 1, at the host's h.
fn lost_value(given: Given) -> u8 {
    let lost = given.lost.0 as usize;
    let shares: Vec<(u8, u8)> = (given.helpers.iter().zip(given.shares))
        .map(|(rack, &share)| (h(points_of(rack.0 as usize)[0]), share))
        .collect();
    let top = polynomial::value(&polynomial::through(&shares), h(point(lost)));
    // The rest of the rack's polynomial, of degree below 3, goes through the
    // sound values less top·x^3.
    let of_top = |point| multiply(top, power(point, 3));
    let sound: Vec<(u8, u8)> = (points_of(lost / SIZE).into_iter().zip(given.host))
        .filter(|&(at, _)| at != point(lost))
        .map(|(at, &value)| (at, value ^ of_top(at)))
        .collect();
    polynomial::value(&polynomial::through(&sound), point(lost)) ^ of_top(point(lost))
}
