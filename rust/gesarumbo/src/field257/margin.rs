//! The loss margin of a cabinet of this field.

use crate::ffi::field257;
use crate::margin::answered;
use crate::{Layout, Refusal};

/// How many more trays may be lost: the number of live trays, less k, as
/// [`margin`](crate::margin()) says.
///
/// Refused, in this order: as there.
///
/// ```
/// use gesarumbo::field257::margin;
/// use gesarumbo::{Layout, ABSENT, LIVE};
///
/// let mut states = [LIVE; 20];
/// assert_eq!(margin(Layout::new(5, 4, 15, 4), &states), Ok(5));
/// states[3..9].fill(ABSENT);
/// assert_eq!(margin(Layout::new(5, 4, 15, 4), &states), Ok(-1));
/// ```
pub fn margin(layout: Layout, states: &[u8]) -> Result<i32, Refusal> {
    answered(field257::margin(layout, states))
}
