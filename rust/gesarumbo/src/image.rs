//! Tray images: a header of 24 bytes and the symbols of one tray.

use crate::ffi::{self, field256};
use crate::{Layout, Refusal, Tray};

/// What a live image of the layout and volume expected holds.
#[derive(Clone, Copy, Debug, PartialEq, Eq)]
pub struct Image<'a> {
    /// The tray it is of.
    pub tray: Tray,
    /// Its L symbols: a part of the image that was read.
    pub symbols: &'a [u8],
}

/// Writes the image of a tray: its header and its L symbols.
///
/// `state` is [`LIVE`](crate::LIVE) or [`DEMONSTRATION`](crate::DEMONSTRATION), and that state is
/// stored. Done: all 24 + L bytes of `image` are written, whatever they held. Refused: `image` is
/// as it was.
///
/// Refused, in this order: [`Refusal::Layout`]; [`Refusal::Length`] where `symbols` has not L bytes
/// or `image` not 24 + L; [`Refusal::Number`] where the tray is not below n, the state is neither of
/// the two, or the volume is 0, which is what a reset tray comes up with.
///
/// ```
/// use gesarumbo::{write_image, Layout, Refusal, Tray, LIVE};
///
/// let mut image = [0; 25];
/// write_image(Layout::new(2, 1, 1, 1), Tray::new(1), LIVE.into(), 7, &[0xA7], &mut image)?;
/// assert_eq!(
///     image,
///     [0x18, 0, 1, 1, 2, 1, 1, 1, 1, 0, 0, 0, 7, 0, 0, 0, 0x18, 0, 0, 0, 1, 0, 0, 0, 0xA7]
/// );
/// # Ok::<(), Refusal>(())
/// ```
pub fn write_image(
    layout: Layout,
    tray: Tray,
    state: u32,
    volume: u32,
    symbols: &[u8],
    image: &mut [u8],
) -> Result<(), Refusal> {
    Refusal::unless_done(
        field256::write_image(layout, tray, state, volume, symbols, image),
        (),
    )
}

/// Reads an image that should be a live one of this layout and volume.
///
/// Done: the tray's number, and the symbols where they lie in the image. A demonstration image is
/// never handed out. Nothing is written.
///
/// Refused, in this order: [`Refusal::Layout`] for the layout expected; [`Refusal::Malformed`]
/// where the bytes are no image, by the layout that they name themselves;
/// [`Refusal::Demonstration`]; [`Refusal::Other`] where a live image is of another layout or volume
/// than expected.
///
/// ```
/// use gesarumbo::{read_image, write_image, Image, Layout, Refusal, Tray, DEMONSTRATION, LIVE};
///
/// let layout = Layout::new(2, 1, 1, 1);
/// let mut image = [0; 25];
/// write_image(layout, Tray::new(1), LIVE.into(), 7, &[0xA7], &mut image)?;
/// assert_eq!(read_image(layout, 7, &image), Ok(Image { tray: Tray::new(1), symbols: &[0xA7] }));
/// assert_eq!(read_image(layout, 8, &image), Err(Refusal::Other));
/// assert_eq!(read_image(layout, 7, &image[..24]), Err(Refusal::Malformed));
///
/// write_image(layout, Tray::new(1), DEMONSTRATION.into(), 7, &[0xA7], &mut image)?;
/// assert_eq!(read_image(layout, 8, &image), Err(Refusal::Demonstration));
/// # Ok::<(), Refusal>(())
/// ```
pub fn read_image(layout: Layout, volume: u32, image: &[u8]) -> Result<Image<'_>, Refusal> {
    let ffi::Image {
        refusal,
        tray,
        offset,
        length,
    } = field256::read_image(layout, volume, image);
    // The part lies in the image, and is empty where the call is refused.
    Refusal::unless_done(
        refusal,
        Image {
            tray,
            symbols: &image[offset..][..length],
        },
    )
}
