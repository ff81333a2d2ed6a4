//! Recovering erased trays in this field though one of the others may be wrong.

use crate::ffi::field257;
use crate::recover_correcting::answered;
use crate::{Layout, Recovered, Refusal, Tray};

/// Fills the erased trays of a codeword from all the others, of which one may be wrong, as
/// [`recover_correcting`](crate::recover_correcting()) does. A wrong tray is one of symbols still.
///
/// Refused, in this order: as there, and [`Refusal::Number`] also where a number of a tray that is
/// not listed is above 256, whatever else is wrong with the list.
///
/// ```
/// use gesarumbo::field257::{recover_correcting, store};
/// use gesarumbo::{Layout, Recovered, Refusal, Tray};
///
/// let layout = Layout::new(2, 4, 4, 1); // eight trays of one symbol, four of data
/// let mut codeword = [0; 8];
/// store(layout, &[5, 7, 256, 11], &mut codeword)?;
/// let whole = codeword;
/// (codeword[2], codeword[6]) = (9999, (codeword[6] + 256) % 257);
/// let named = Recovered { tray: Some(Tray::new(6)), checks: 3 };
/// assert_eq!(recover_correcting(layout, &mut codeword, &[Tray::new(2)]), Ok(named));
/// assert_eq!(codeword, whole);
/// # Ok::<(), Refusal>(())
/// ```
pub fn recover_correcting(
    layout: Layout,
    codeword: &mut [u16],
    erased: &[Tray],
) -> Result<Recovered, Refusal> {
    answered(
        layout,
        field257::recover_correcting(layout, codeword, erased),
    )
}
