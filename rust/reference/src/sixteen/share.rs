//! A helper's share.

use super::{above, has_rack, points_of, polynomial, SIZE};
use crate::layout::Rack;
use crate::refusal::{refuse, Refusal};

/// What the byte lent for the share holds afterwards.
pub fn share(host: Rack, helper: Rack, rack: &[u8], share: &[u8]) -> Result<Vec<u8>, Refusal> {
    let outside = !has_rack(host) || !has_rack(helper);
    refuse(&[
        (Refusal::Length, rack.len() != SIZE || share.len() != 1),
        (
            Refusal::Number,
            outside || rack.iter().any(|&value| above(value)),
        ),
        (Refusal::Host, host == helper),
    ])?;
    Ok(vec![top(helper.0 as usize, rack)])
}

/// The coefficient of x^3 of the polynomial of degree below 4 through a rack's
/// four values.
pub fn top(rack: usize, values: &[u8]) -> u8 {
    let pairs: Vec<(u8, u8)> = points_of(rack)
        .into_iter()
        .zip(values.iter().copied())
        .collect();
    polynomial::through(&pairs)[SIZE - 1]
}
