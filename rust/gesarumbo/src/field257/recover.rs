//! Recovering erased trays in this field.

use crate::ffi::field257;
use crate::{Layout, Refusal, Tray};

/// Fills the erased trays of a codeword from all the others, as [`recover`](crate::recover()) does.
///
/// Refused, in this order: as there, and [`Refusal::Number`] also where a number of a tray that is
/// not listed is above 256, whatever else is wrong with the list.
///
/// ```
/// use gesarumbo::field257::recover;
/// use gesarumbo::{Layout, Refusal, Tray};
///
/// let layout = Layout::new(2, 2, 2, 1);
/// let mut codeword = [5, 9999, 80, 165]; // tray 1 is erased, and not looked at
/// recover(layout, &mut codeword, &[Tray::new(1)])?;
/// assert_eq!(codeword, [5, 7, 80, 165]);
///
/// codeword[3] = 164;
/// assert_eq!(recover(layout, &mut codeword, &[Tray::new(1)]), Err(Refusal::Survivors));
/// codeword[3] = 257;
/// let falling = [Tray::new(1), Tray::new(0)];
/// assert_eq!(recover(layout, &mut codeword, &falling), Err(Refusal::Number));
/// # Ok::<(), Refusal>(())
/// ```
pub fn recover(layout: Layout, codeword: &mut [u16], erased: &[Tray]) -> Result<(), Refusal> {
    Refusal::unless_done(field257::recover(layout, codeword, erased), ())
}
