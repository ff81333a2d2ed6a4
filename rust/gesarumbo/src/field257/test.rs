//! The testing of a codeword of this field.

use crate::ffi::field257;
use crate::test::answered;
use crate::{Layout, Refusal, Tested};

/// Tests whether n·L symbols are a codeword, as [`test`](crate::test()) does.
///
/// Refused, in this order: as there, and [`Refusal::Number`] where any number is above 256, also
/// behind a bad layer.
///
/// ```
/// use gesarumbo::field257::test;
/// use gesarumbo::{Layer, Layout, Refusal, Tested};
///
/// let layout = Layout::new(2, 1, 1, 1);
/// assert_eq!(test(layout, &[100, 157]), Ok(Tested::Sound));
/// assert_eq!(test(layout, &[100, 100]), Ok(Tested::Bad { layer: Layer::new(0), check: 0 }));
/// assert_eq!(test(layout, &[0, 257]), Err(Refusal::Number));
/// ```
pub fn test(layout: Layout, codeword: &[u16]) -> Result<Tested, Refusal> {
    answered(field257::test(layout, codeword))
}
