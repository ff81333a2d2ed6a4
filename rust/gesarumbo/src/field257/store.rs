//! Storing in this field.

use crate::ffi::field257;
use crate::{Layout, Refusal};

/// Turns k·L symbols of data into the one codeword whose trays 0 to k − 1 they are, as
/// [`store`](crate::store()) does.
///
/// Refused, in this order: as there, and [`Refusal::Number`] where a number of `data` is above 256.
/// What `codeword` holds is not looked at.
///
/// ```
/// use gesarumbo::field257::store;
/// use gesarumbo::{Layout, Refusal};
///
/// // Two racks of two trays, two trays' worth of data.
/// let layout = Layout::new(2, 2, 2, 1);
/// let mut codeword = [9999; 4];
/// store(layout, &[5, 7], &mut codeword)?;
/// assert_eq!(codeword, [5, 7, 80, 165]);
/// assert_eq!(store(layout, &[5, 257], &mut codeword), Err(Refusal::Number));
/// # Ok::<(), Refusal>(())
/// ```
pub fn store(layout: Layout, data: &[u16], codeword: &mut [u16]) -> Result<(), Refusal> {
    Refusal::unless_done(field257::store(layout, data, codeword), ())
}
