//! Tray images of edition 2: a header of 24 bytes and the symbols of one tray, two bytes each.

use crate::ffi::{self, field257};
use crate::{Layout, Refusal, Tray};

/// Writes the image of a tray, as [`write_image`](crate::write_image) does: its header and its L
/// symbols, 24 + 2·L bytes.
///
/// Refused, in this order: as there, and [`Refusal::Number`] also where a number of `symbols` is
/// above 256.
///
/// ```
/// use gesarumbo::field257::write_image;
/// use gesarumbo::{Layout, Refusal, Tray, LIVE};
///
/// let mut image = [0; 26];
/// write_image(Layout::new(2, 1, 1, 1), Tray::new(1), LIVE.into(), 7, &[256], &mut image)?;
/// assert_eq!(
///     image,
///     [0x18, 0, 2, 1, 2, 1, 1, 1, 1, 0, 0, 0, 7, 0, 0, 0, 0x18, 0, 0, 0, 1, 0, 0, 0, 0, 1]
/// );
/// # Ok::<(), Refusal>(())
/// ```
pub fn write_image(
    layout: Layout,
    tray: Tray,
    state: u32,
    volume: u32,
    symbols: &[u16],
    image: &mut [u8],
) -> Result<(), Refusal> {
    let refusal = field257::write_image(layout, tray, state, volume, symbols, image);
    Refusal::unless_done(refusal, ())
}

/// Reads an image that should be a live one of this layout and volume, gives its tray and copies
/// its L symbols to the places lent.
///
/// Done: all of `symbols` is written, whatever it held. A demonstration image is never handed out.
/// Refused: `symbols` is as it was.
///
/// Refused, in this order: [`Refusal::Layout`] for the layout expected; [`Refusal::Length`] where
/// `symbols` has not its L places; [`Refusal::Malformed`] where the bytes are no image of edition 2,
/// by the layout that they name themselves, or a symbol is above 256; [`Refusal::Demonstration`];
/// [`Refusal::Other`] where a live image is of another layout or volume than expected.
///
/// ```
/// use gesarumbo::field257::{read_image, write_image};
/// use gesarumbo::{Layout, Refusal, Tray, LIVE};
///
/// let layout = Layout::new(2, 1, 1, 1);
/// let (mut image, mut symbols) = ([0; 26], [0; 1]);
/// write_image(layout, Tray::new(1), LIVE.into(), 7, &[256], &mut image)?;
/// assert_eq!(read_image(layout, 7, &image, &mut symbols), Ok(Tray::new(1)));
/// assert_eq!(symbols, [256]);
/// assert_eq!(read_image(layout, 8, &image, &mut symbols), Err(Refusal::Other));
/// assert_eq!(gesarumbo::read_image(layout, 7, &image), Err(Refusal::Malformed));
/// # Ok::<(), Refusal>(())
/// ```
pub fn read_image(
    layout: Layout,
    volume: u32,
    image: &[u8],
    symbols: &mut [u16],
) -> Result<Tray, Refusal> {
    let ffi::Image257 { refusal, tray } = field257::read_image(layout, volume, image, symbols);
    Refusal::unless_done(refusal, tray)
}
