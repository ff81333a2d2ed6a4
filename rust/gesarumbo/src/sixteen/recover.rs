//! Recovering erased trays of the box.

use super::ffi;
use crate::{Refusal, Tray};

/// Fills the erased trays from all the others.
///
/// Done: `values` is a word, the only one with these survivors. The erased trays alone were written,
/// and their old values were not looked at. With none erased nothing is written: the call tests the
/// word. Refused: `values` is as it was.
///
/// Refused, in this order: [`Refusal::Length`] where `values` has not 16 bytes; [`Refusal::Number`]
/// where a tray listed is not below 16, or the value of one that is not listed is above 15;
/// [`Refusal::Order`] where the list does not rise; [`Refusal::Count`] where it has more than 9 trays;
/// [`Refusal::Survivors`] exactly where no word has the survivors.
///
/// ```
/// use gesarumbo::{sixteen, Refusal, Tray};
///
/// // Three trays of the first rack are lost together.
/// let mut values = [0; 16];
/// sixteen::store(&[1, 2, 3, 4, 5, 6, 7], &mut values)?;
/// let word = values;
/// values[1..4].fill(0xFF);
/// sixteen::recover(&mut values, &[1, 2, 3].map(Tray::new))?;
/// assert_eq!(values, word);
///
/// // A survivor that is not what it was.
/// values[9] ^= 1;
/// assert_eq!(sixteen::recover(&mut values, &[]), Err(Refusal::Survivors));
/// # Ok::<(), Refusal>(())
/// ```
pub fn recover(values: &mut [u8], erased: &[Tray]) -> Result<(), Refusal> {
    Refusal::unless_done(ffi::recover(values, erased), ())
}
