//! Storing in the box.

use super::ffi;
use crate::Refusal;

/// Turns 7 symbols of data into their word: the values of the polynomial of which they are the
/// coefficients, the lowest first.
///
/// Done: all 16 bytes of `values` are written, whatever they held; no other data have this word.
/// Refused: `values` is as it was.
///
/// Refused, in this order: [`Refusal::Length`] where `data` has not 7 bytes or `values` not 16;
/// [`Refusal::Number`] where one of the data is above 15.
///
/// ```
/// use gesarumbo::{sixteen, Refusal};
///
/// // h(x) = x + x^4, by which the racks are sorted: it is 0, 1, y^5 and y^10 there.
/// let mut values = [0; 16];
/// sixteen::store(&[0, 1, 0, 0, 1, 0, 0], &mut values)?;
/// assert_eq!(values, [0, 0, 0, 0, 1, 1, 1, 1, 6, 6, 6, 6, 7, 7, 7, 7]);
///
/// let before = values;
/// assert_eq!(sixteen::store(&[0, 1, 0, 0, 16, 0, 0], &mut values), Err(Refusal::Number));
/// assert_eq!(values, before);
/// # Ok::<(), Refusal>(())
/// ```
pub fn store(data: &[u8], values: &mut [u8]) -> Result<(), Refusal> {
    Refusal::unless_done(ffi::store(data, values), ())
}
