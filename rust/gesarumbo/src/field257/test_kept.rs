//! The testing of a codeword of this field of which trays are missing.

use crate::ffi::field257;
use crate::test_kept::answered;
use crate::{Kept, Layout, Refusal, Tray};

/// Tests the trays of a codeword that are not listed as erased, as
/// [`test_kept`](crate::test_kept()) does.
///
/// Refused, in this order: as there, and [`Refusal::Number`] also where a number of a tray that is
/// not listed is above 256, also behind a bad layer and whatever else is wrong with the list.
///
/// ```
/// use gesarumbo::field257::test_kept;
/// use gesarumbo::{Kept, Layer, Layout, Refusal, Tray};
///
/// let (layout, erased) = (Layout::new(2, 2, 2, 1), [Tray::new(1)]);
/// assert_eq!(test_kept(layout, &[5, 9999, 80, 165], &erased), Ok(Kept::Sound { checks: 1 }));
/// let bad = Kept::Bad { layer: Layer::new(0), checks: 1 };
/// assert_eq!(test_kept(layout, &[5, 9999, 80, 164], &erased), Ok(bad));
/// assert_eq!(test_kept(layout, &[5, 9999, 80, 257], &erased), Err(Refusal::Number));
/// ```
pub fn test_kept(layout: Layout, codeword: &[u16], erased: &[Tray]) -> Result<Kept, Refusal> {
    answered(field257::test_kept(layout, codeword, erased))
}
