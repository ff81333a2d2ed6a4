//! Recovering erased trays.

use crate::ffi::field256;
use crate::{Layout, Refusal, Tray};

/// Fills the erased trays of a codeword from all the others.
///
/// Done: `codeword` is a codeword, the only one with these survivors. The erased trays alone were
/// written, and their old bytes were not looked at. With none erased nothing is written: the call
/// tests the codeword. Refused: `codeword` is as it was.
///
/// Refused, in this order: [`Refusal::Layout`]; [`Refusal::Length`] where `codeword` has not n·L
/// bytes; [`Refusal::Number`] where a tray is not below n; [`Refusal::Order`] where the list does
/// not rise; [`Refusal::Count`] where it has more than r trays; [`Refusal::Survivors`] exactly
/// where no codeword has the survivors.
///
/// ```
/// use gesarumbo::{recover, Layout, Refusal, Tray};
///
/// let layout = Layout::new(2, 3, 3, 1);
/// let mut codeword = [0x01, 0x02, 0x04, 0, 0, 0];
/// recover(layout, &mut codeword, &[3, 4, 5].map(Tray::new))?;
///
/// // Here a tray is the exclusive or of the other five.
/// codeword[1] = 0xFF;
/// recover(layout, &mut codeword, &[Tray::new(1)])?;
/// assert_eq!(codeword[1], 0x02);
/// assert_eq!(codeword.iter().fold(0, |sum, symbol| sum ^ symbol), 0);
///
/// // A survivor that is not what it was.
/// codeword[4] ^= 1;
/// assert_eq!(recover(layout, &mut codeword, &[Tray::new(1)]), Err(Refusal::Survivors));
/// # Ok::<(), Refusal>(())
/// ```
pub fn recover(layout: Layout, codeword: &mut [u8], erased: &[Tray]) -> Result<(), Refusal> {
    Refusal::unless_done(field256::recover(layout, codeword, erased), ())
}
