//! The numbers that follow from a layout of this field.

use crate::ffi::field257;
use crate::measure::answered;
use crate::{Layout, Measured, Refusal};

/// Gives the layers, the checks and the traffic of a layout, as [`measure`](crate::measure()) does.
///
/// Refused: [`Refusal::Layout`] where the layout is not admissible in this field.
///
/// ```
/// use gesarumbo::field257::measure;
/// use gesarumbo::{Layout, Measured, Refusal};
///
/// let racks_of_four = Measured { layers: 32, checks: 5, traffic: 64 };
/// assert_eq!(measure(Layout::new(5, 4, 15, 4)), Ok(racks_of_four));
/// assert_eq!(measure(Layout::new(4, 3, 8, 3)), Err(Refusal::Layout));
/// ```
pub fn measure(layout: Layout) -> Result<Measured, Refusal> {
    answered(field257::measure(layout))
}
