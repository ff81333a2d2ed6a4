//! All numbers of a layout of this field.

use crate::ffi::field257;
use crate::{Layout, Numbers, Refusal};

/// Gives all numbers of a layout, as [`numbers`](crate::numbers()) does. Lengths count symbols.
///
/// Refused: [`Refusal::Layout`] where the layout is not admissible in this field.
///
/// ```
/// use gesarumbo::field257::numbers;
/// use gesarumbo::{Layout, Refusal};
///
/// let racks_of_four = numbers(Layout::new(5, 4, 15, 4))?;
/// assert_eq!((racks_of_four.trays, racks_of_four.layers, racks_of_four.groups), (20, 32, 16));
/// assert_eq!((racks_of_four.whole, racks_of_four.part), (3, 3));
/// assert_eq!(numbers(Layout::new(4, 3, 8, 3)), Err(Refusal::Layout));
/// # Ok::<(), Refusal>(())
/// ```
pub fn numbers(layout: Layout) -> Result<Numbers, Refusal> {
    Numbers::of(layout, field257::measure(layout))
}
