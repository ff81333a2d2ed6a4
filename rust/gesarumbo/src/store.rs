//! Storing.

use crate::ffi::field256;
use crate::{Layout, Refusal};

/// Turns k·L bytes of data into the one codeword whose trays 0 to k − 1 they are.
///
/// Done: all n·L bytes of `codeword` are written, whatever they held; the data stand in front, and
/// no other codeword begins with them. Refused: `codeword` is as it was.
///
/// Refused, in this order: [`Refusal::Layout`]; [`Refusal::Length`] where `data` has not k·L bytes
/// or `codeword` not n·L.
///
/// ```
/// use gesarumbo::{store, Layout, Refusal};
///
/// let mut codeword = [0; 2];
/// store(Layout::new(2, 1, 1, 1), &[0xA7], &mut codeword)?;
/// assert_eq!(codeword, [0xA7, 0xA7]);
/// # Ok::<(), Refusal>(())
/// ```
///
/// ```
/// use gesarumbo::{store, Layout, Refusal};
///
/// let mut codeword = [0; 24];
/// store(Layout::new(3, 1, 1, 2), &[0x14, 0x14, 0x18, 0x18, 0x24, 0x24, 0x28, 0x28], &mut codeword)?;
/// assert_eq!(codeword[8..16], [0x11, 0x12, 0x11, 0x12, 0x21, 0x22, 0x21, 0x22]);
/// assert_eq!(codeword[16..], [0x05, 0x06, 0x09, 0x0A, 0x05, 0x06, 0x09, 0x0A]);
/// # Ok::<(), Refusal>(())
/// ```
pub fn store(layout: Layout, data: &[u8], codeword: &mut [u8]) -> Result<(), Refusal> {
    Refusal::unless_done(field256::store(layout, data, codeword), ())
}
