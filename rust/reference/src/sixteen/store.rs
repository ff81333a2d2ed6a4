//! Storing data.

use super::{above, point, polynomial, DIMENSION, TRAYS};
use crate::refusal::{refuse, Refusal};

/// What the 16 bytes lent hold afterwards: the values of the data's polynomial.
pub fn store(data: &[u8], values: &[u8]) -> Result<Vec<u8>, Refusal> {
    refuse(&[
        (
            Refusal::Length,
            data.len() != DIMENSION || values.len() != TRAYS,
        ),
        (Refusal::Number, data.iter().any(|&symbol| above(symbol))),
    ])?;
    Ok(word(data))
}

/// The values of a polynomial at the points of all trays.
pub fn word(coefficients: &[u8]) -> Vec<u8> {
    (0..TRAYS)
        .map(|tray| polynomial::value(coefficients, point(tray)))
        .collect()
}
