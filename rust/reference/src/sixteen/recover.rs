//! Recovering erased trays, and the data, from the trays that are left.

use super::store::word;
use super::{above, has_tray, point, polynomial, DIMENSION, MOST_ERASED, TRAYS};
use crate::layout::Tray;
use crate::refusal::{refuse, rising, Refusal};

/// What the 16 bytes lent hold afterwards.
pub fn recover(values: &[u8], erased: &[Tray]) -> Result<Vec<u8>, Refusal> {
    refuse_survivors(values, erased, false)?;
    // Survivors of a word keep their values in it.
    Ok(word(&stored(values, erased)?))
}

/// What the 7 bytes lent for the data hold afterwards.
pub fn data(values: &[u8], erased: &[Tray], data: &[u8]) -> Result<Vec<u8>, Refusal> {
    refuse_survivors(values, erased, data.len() != DIMENSION)?;
    stored(values, erased)
}

/// The grounds before the last one. Of the values, those of trays that are not
/// listed are looked at, whatever the list is.
fn refuse_survivors(values: &[u8], erased: &[Tray], wrong_length: bool) -> Result<(), Refusal> {
    let outside = erased.iter().any(|&tray| !has_tray(tray));
    let too_large = survivors(values, erased).any(|(_, value)| above(value));
    refuse(&[
        (Refusal::Length, values.len() != TRAYS || wrong_length),
        (Refusal::Number, outside || too_large),
        (Refusal::Order, !rising(erased)),
        (Refusal::Count, erased.len() > MOST_ERASED),
    ])
}

/// The trays that are not listed, with their values.
fn survivors<'a>(values: &'a [u8], erased: &'a [Tray]) -> impl Iterator<Item = (usize, u8)> + 'a {
    let trays = values.iter().copied().enumerate();
    trays.filter(|&(tray, _)| !erased.contains(&Tray(tray as u32)))
}

/// The coefficients of the polynomial through all survivors, refused where its
/// degree is not below 7.
fn stored(values: &[u8], erased: &[Tray]) -> Result<Vec<u8>, Refusal> {
    let pairs: Vec<(u8, u8)> = survivors(values, erased)
        .map(|(tray, value)| (point(tray), value))
        .collect();
    let mut found = polynomial::through(&pairs);
    let higher = found.split_off(DIMENSION);
    refuse(&[(
        Refusal::Survivors,
        higher.iter().any(|&coefficient| coefficient != 0),
    )])?;
    Ok(found)
}
