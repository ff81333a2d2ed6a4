//! From tray images to the buffers of the other calls: what stands at a place is used exactly where
//! it is a live image of this layout, volume and place.

use crate::ffi::{self, field256};
use crate::{Layout, Rack, Refusal, Tray};

/// Says what stands at each of the n places, for the [`margin`](crate::margin()).
///
/// `images` is what stands at all places, 24 + L bytes each, anything. Done: all n bytes of
/// `states` are written, whatever they held: [`LIVE`](crate::LIVE) where a live image of this
/// layout, volume and place stands, [`DEMONSTRATION`](crate::DEMONSTRATION) where
/// [`read_image`](crate::read_image) finds a demonstration image, of any layout, volume and place,
/// and [`ABSENT`](crate::ABSENT) everywhere else. Refused: `states` is as it was.
///
/// Refused, in this order: [`Refusal::Layout`]; [`Refusal::Length`] where `images` has not
/// n·(24 + L) bytes or `states` not n.
///
/// ```
/// use gesarumbo::{margin, states, write_image, Layout, Refusal, Tray, ABSENT, DEMONSTRATION, LIVE};
///
/// let layout = Layout::new(3, 1, 1, 1); // three trays of one symbol
/// let mut images = [0; 3 * 25];
/// write_image(layout, Tray::new(0), LIVE.into(), 7, &[0xA7], &mut images[..25])?;
/// write_image(layout, Tray::new(1), DEMONSTRATION.into(), 7, &[0xA7], &mut images[25..50])?;
/// write_image(layout, Tray::new(1), LIVE.into(), 7, &[0xA7], &mut images[50..])?;
/// let mut found = [9; 3];
/// states(layout, 7, &images, &mut found)?;
/// assert_eq!(found, [LIVE, DEMONSTRATION, ABSENT]); // at place 2 stands tray 1
/// assert_eq!(margin(layout, &found), Ok(0));
/// # Ok::<(), Refusal>(())
/// ```
pub fn states(
    layout: Layout,
    volume: u32,
    images: &[u8],
    states: &mut [u8],
) -> Result<(), Refusal> {
    Refusal::unless_done(field256::states(layout, volume, images, states), ())
}

/// Gathers a codeword from what stands at the n places, and says which trays are missing.
///
/// `images` is what stands at all places, 24 + L bytes each, anything. A tray is there exactly
/// where a live image of this layout, volume and place stands. Done: all n·L bytes of `codeword`
/// are written, whatever they held: the symbols of each tray that is there, and zeros for every
/// other. The answer is how many are missing, and the first so many of `missing` are their numbers,
/// rising; the rest of `missing` is as it was. Nothing else that stands at a place has any effect.
/// Refused: `codeword` and `missing` are as they were.
///
/// Refused, in this order: [`Refusal::Layout`]; [`Refusal::Length`] where `images` has not
/// n·(24 + L) bytes, `codeword` not n·L or `missing` not n.
///
/// ```
/// use gesarumbo::{gather, recover, store, write_image, Layout, Refusal, Tray, DEMONSTRATION, LIVE};
///
/// let layout = Layout::new(4, 3, 8, 3); // 12 trays of 16 symbols
/// let mut codeword = [0; 12 * 16];
/// store(layout, &[0xA7; 8 * 16], &mut codeword)?;
/// let mut images = [0; 12 * 40];
/// for (tray, image) in images.chunks_mut(40).enumerate() {
///     let symbols = &codeword[tray * 16..][..16];
///     write_image(layout, Tray::new(tray as u32), LIVE.into(), 7, symbols, image)?;
/// }
///
/// // A reset tray comes up with demonstration contents at place 5, and place 8 is empty.
/// let demonstration = DEMONSTRATION.into();
/// write_image(layout, Tray::new(5), demonstration, 7, &[1; 16], &mut images[5 * 40..6 * 40])?;
/// images[8 * 40..9 * 40].fill(0xFF);
/// let (mut gathered, mut missing) = ([9; 12 * 16], [Tray::new(0); 12]);
/// let count = gather(layout, 7, &images, &mut gathered, &mut missing)?;
/// assert_eq!(missing[..count], [5, 8].map(Tray::new));
/// recover(layout, &mut gathered, &missing[..count])?;
/// assert_eq!(gathered, codeword);
/// # Ok::<(), Refusal>(())
/// ```
pub fn gather(
    layout: Layout,
    volume: u32,
    images: &[u8],
    codeword: &mut [u8],
    missing: &mut [Tray],
) -> Result<usize, Refusal> {
    answered(field256::gather(layout, volume, images, codeword, missing))
}

/// What the library's answer means.
pub(crate) fn answered(answer: ffi::Gathered) -> Result<usize, Refusal> {
    let ffi::Gathered { refusal, count } = answer;
    Refusal::unless_done(refusal, count as usize)
}

/// Gathers one rack from what stands at its u places, for a share or as the host of a repair.
///
/// `images` is what stands at the rack's places, 24 + L bytes each; what stands at those of the
/// lost trays is not looked at. Done: the symbols of every other tray are written to its place in
/// the u·L bytes of `out`; the places of the lost trays are as they were. Refused: `out` is as it
/// was.
///
/// Refused, in this order: [`Refusal::Layout`]; [`Refusal::Length`] where `images` has not
/// u·(24 + L) bytes or `out` not u·L; [`Refusal::Number`] where the rack is not below B, or a lost
/// tray is not one of this rack; [`Refusal::Order`] where the list does not rise; then, each over
/// all images that are looked at, [`Refusal::Malformed`]; [`Refusal::Demonstration`];
/// [`Refusal::Other`] where a live image is of another layout, volume or place.
///
/// ```
/// use gesarumbo::{gather_rack, write_image, Layout, Rack, Refusal, Tray, DEMONSTRATION, LIVE};
///
/// let layout = Layout::new(2, 3, 3, 1); // trays of one symbol; rack 1 has trays 3, 4 and 5
/// let mut images = [0; 3 * 25];
/// write_image(layout, Tray::new(3), LIVE.into(), 7, &[0x03], &mut images[..25])?;
/// write_image(layout, Tray::new(4), DEMONSTRATION.into(), 7, &[0x04], &mut images[25..50])?;
/// write_image(layout, Tray::new(5), LIVE.into(), 7, &[0x05], &mut images[50..])?;
/// let (rack, mut out) = (Rack::new(1), [0xEE; 3]);
/// assert_eq!(gather_rack(layout, 7, rack, &[], &images, &mut out), Err(Refusal::Demonstration));
/// gather_rack(layout, 7, rack, &[Tray::new(4)], &images, &mut out)?;
/// assert_eq!(out, [0x03, 0xEE, 0x05]);
/// # Ok::<(), Refusal>(())
/// ```
pub fn gather_rack(
    layout: Layout,
    volume: u32,
    rack: Rack,
    lost: &[Tray],
    images: &[u8],
    out: &mut [u8],
) -> Result<(), Refusal> {
    Refusal::unless_done(
        field256::gather_rack(layout, volume, rack, lost, images, out),
        (),
    )
}
