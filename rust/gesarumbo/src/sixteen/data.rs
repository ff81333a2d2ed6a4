//! The data from the trays of the box that are left.

use super::ffi;
use crate::{Refusal, Tray};

/// Gives the 7 symbols of data from the trays that are not erased.
///
/// Done: all 7 bytes of `data` are written, whatever they held: the only data whose word has these
/// survivors. What `values` holds at the erased trays was not looked at. Refused: `data` is as it
/// was.
///
/// Refused, in this order: [`Refusal::Length`] where `values` has not 16 bytes or `data` not 7;
/// [`Refusal::Number`] where a tray listed is not below 16, or the value of one that is not listed is
/// above 15; [`Refusal::Order`] where the list does not rise; [`Refusal::Count`] where it has more
/// than 9 trays; [`Refusal::Survivors`] exactly where no word has the survivors.
///
/// ```
/// use gesarumbo::{sixteen, Refusal, Tray};
///
/// let mut values = [0; 16];
/// sixteen::store(&[1, 2, 3, 4, 5, 6, 7], &mut values)?;
/// let erased = [1, 3, 5, 6, 7, 9, 11, 12, 14].map(Tray::new);
/// erased.iter().for_each(|tray| values[tray.number() as usize] = 0xFF);
/// let mut data = [0; 7];
/// sixteen::data(&values, &erased, &mut data)?;
/// assert_eq!(data, [1, 2, 3, 4, 5, 6, 7]);
///
/// // With a tray fewer erased, a survivor that is not what it was is found.
/// values[14] = 0;
/// assert_eq!(sixteen::data(&values, &erased[..8], &mut data), Err(Refusal::Survivors));
/// # Ok::<(), Refusal>(())
/// ```
pub fn data(values: &[u8], erased: &[Tray], data: &mut [u8]) -> Result<(), Refusal> {
    Refusal::unless_done(ffi::data(values, erased, data), ())
}
