//! Reading while a lost tray is being repaired in this field.

use core::ops::Range;

use crate::ffi::field257;
use crate::reading::answered;
use crate::{Layout, Refusal, Tray};

/// Reads a run of layers of a tray while the tray `lost` is being repaired in `spare`, as
/// [`read_part`](crate::read_part) does. No symbol is looked at.
///
/// Refused, in this order: as there.
///
/// ```
/// use gesarumbo::field257::read_part;
/// use gesarumbo::{Layout, Refusal, Tray};
///
/// let (layout, lost) = (Layout::new(3, 1, 1, 2), Tray::new(0));
/// let (codeword, spare): (Vec<u16>, Vec<u16>) = ((0..24).collect(), (300..308).collect());
/// let read = |tray, layers| {
///     read_part(layout, &codeword, &spare, lost, 2, Tray::new(tray), layers)
/// };
/// assert_eq!(read(1, 6..8), Ok(&[14, 15][..]));
/// assert_eq!(read(0, 1..4), Ok(&[301, 302, 303][..]));
/// assert_eq!(read(0, 3..5), Err(Refusal::NotRepaired));
/// ```
pub fn read_part<'a>(
    layout: Layout,
    codeword: &'a [u16],
    spare: &'a [u16],
    lost: Tray,
    groups: u64,
    tray: Tray,
    layers: Range<u32>,
) -> Result<&'a [u16], Refusal> {
    let Range { start, end } = layers;
    let answer = field257::read_part(layout, codeword, spare, lost, groups, tray, start, end);
    answered(answer, codeword, spare)
}
