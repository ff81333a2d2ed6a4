//! From tray images of edition 2 to the buffers of the other calls of this field.

use crate::ffi::field257;
use crate::gather::answered;
use crate::{Layout, Rack, Refusal, Tray};

/// Says what stands at each of the n places, 24 + 2·L bytes each, as [`states`](crate::states())
/// does.
///
/// Refused, in this order: as there, `images` having n·(24 + 2·L) bytes.
///
/// ```
/// use gesarumbo::field257::{states, write_image};
/// use gesarumbo::{Layout, Refusal, Tray, ABSENT, LIVE};
///
/// let layout = Layout::new(2, 1, 1, 1);
/// let mut images = [0; 2 * 26];
/// write_image(layout, Tray::new(0), LIVE.into(), 7, &[256], &mut images[..26])?;
/// write_image(layout, Tray::new(1), LIVE.into(), 7, &[256], &mut images[26..])?;
/// images[50] = 1; // tray 1 now holds 257, which is no symbol
/// let mut found = [9; 2];
/// states(layout, 7, &images, &mut found)?;
/// assert_eq!(found, [LIVE, ABSENT]);
/// # Ok::<(), Refusal>(())
/// ```
pub fn states(
    layout: Layout,
    volume: u32,
    images: &[u8],
    states: &mut [u8],
) -> Result<(), Refusal> {
    Refusal::unless_done(field257::states(layout, volume, images, states), ())
}

/// Gathers a codeword from what stands at the n places, 24 + 2·L bytes each, and says which trays
/// are missing, as [`gather`](crate::gather()) does. What `codeword` holds is not looked at.
///
/// Refused, in this order: as there, `images` having n·(24 + 2·L) bytes.
///
/// ```
/// use gesarumbo::field257::{gather, recover, write_image};
/// use gesarumbo::{Layout, Refusal, Tray, LIVE};
///
/// let layout = Layout::new(2, 1, 1, 1);
/// let mut images = [0; 2 * 26];
/// write_image(layout, Tray::new(0), LIVE.into(), 7, &[256], &mut images[..26])?;
/// let (mut codeword, mut missing) = ([9999; 2], [Tray::new(9); 2]);
/// assert_eq!(gather(layout, 7, &images, &mut codeword, &mut missing), Ok(1));
/// assert_eq!((codeword, missing), ([256, 0], [Tray::new(1), Tray::new(9)]));
/// recover(layout, &mut codeword, &missing[..1])?;
/// assert_eq!(codeword, [256, 1]);
/// # Ok::<(), Refusal>(())
/// ```
pub fn gather(
    layout: Layout,
    volume: u32,
    images: &[u8],
    codeword: &mut [u16],
    missing: &mut [Tray],
) -> Result<usize, Refusal> {
    answered(field257::gather(layout, volume, images, codeword, missing))
}

/// Gathers one rack from what stands at its u places, 24 + 2·L bytes each, as
/// [`gather_rack`](crate::gather_rack()) does. What `out` holds is not looked at.
///
/// Refused, in this order: as there, `images` having u·(24 + 2·L) bytes.
///
/// ```
/// use gesarumbo::field257::{gather_rack, write_image};
/// use gesarumbo::{Layout, Rack, Refusal, Tray, LIVE};
///
/// let layout = Layout::new(2, 2, 2, 1); // rack 1 has trays 2 and 3
/// let mut images = [0; 2 * 26];
/// write_image(layout, Tray::new(3), LIVE.into(), 7, &[256], &mut images[26..])?;
/// let (rack, mut out) = (Rack::new(1), [9999; 2]);
/// assert_eq!(gather_rack(layout, 7, rack, &[], &images, &mut out), Err(Refusal::Malformed));
/// gather_rack(layout, 7, rack, &[Tray::new(2)], &images, &mut out)?;
/// assert_eq!(out, [9999, 256]);
/// # Ok::<(), Refusal>(())
/// ```
pub fn gather_rack(
    layout: Layout,
    volume: u32,
    rack: Rack,
    lost: &[Tray],
    images: &[u8],
    out: &mut [u16],
) -> Result<(), Refusal> {
    Refusal::unless_done(
        field257::gather_rack(layout, volume, rack, lost, images, out),
        (),
    )
}
