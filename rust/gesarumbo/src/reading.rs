//! Reading while a lost tray is being repaired.

use core::ops::Range;

use crate::ffi::{self, field256};
use crate::{Layout, Refusal, Tray};

/// Reads a run of layers of a tray while the tray `lost` is being repaired in `spare`.
///
/// `codeword` has n·L bytes, of which those of the lost tray are not looked at; `spare` has L
/// bytes, and so many `groups` of the lost tray's rack are done in it, from group 0 on. The run is
/// `layers.start` up to `layers.end`, itself left out: plain numbers, since it may end at L.
///
/// Done: the part, where it lies: in the codeword for a tray that is not lost, in the spare for the
/// lost one. An empty run is an empty part. If the spare was written by pieces of a repair of this
/// tray alone, from group 0 on and at least as far as `groups` says, from shares and sound trays of
/// a codeword to which the other trays of `codeword` belong, the part is that codeword's. Nothing
/// is written.
///
/// Refused, in this order: [`Refusal::Layout`], also where E is 1; [`Refusal::Length`] where
/// `codeword` has not n·L bytes or `spare` not L; [`Refusal::Number`] where a tray is not below n,
/// `groups` is above L/s, or the run ends above L or before it begins; [`Refusal::NotRepaired`]
/// where a layer asked for of the lost tray is not in a group that is done.
///
/// ```
/// use gesarumbo::{read_part, repair, Layout, Rack, Refusal, Tray};
///
/// let (layout, lost, helpers) = (Layout::new(3, 1, 1, 2), Tray::new(0), [1, 2].map(Rack::new));
/// let mut codeword = [0xEE; 24]; // tray 0 is lost
/// codeword[8..16].copy_from_slice(&[0x11, 0x12, 0x11, 0x12, 0x21, 0x22, 0x21, 0x22]);
/// codeword[16..].copy_from_slice(&[0x05, 0x06, 0x09, 0x0A, 0x05, 0x06, 0x09, 0x0A]);
/// let mut spare = [0; 8];
/// repair(layout, lost, &helpers, &[3; 8], &[0; 8], &mut spare, 0, 2)?;
///
/// // Groups 0 and 1 of rack 0 are layers 0 to 3.
/// let read = |tray, layers| {
///     read_part(layout, &codeword, &spare, lost, 2, Tray::new(tray), layers)
/// };
/// assert_eq!(read(1, 6..8), Ok(&[0x21, 0x22][..]));
/// assert_eq!(read(0, 0..4), Ok(&[0x14, 0x14, 0x18, 0x18][..]));
/// assert_eq!(read(0, 3..5), Err(Refusal::NotRepaired));
/// assert_eq!(read(0, 8..8), Ok(&[][..]));
/// # Ok::<(), Refusal>(())
/// ```
pub fn read_part<'a>(
    layout: Layout,
    codeword: &'a [u8],
    spare: &'a [u8],
    lost: Tray,
    groups: u64,
    tray: Tray,
    layers: Range<u32>,
) -> Result<&'a [u8], Refusal> {
    let Range { start, end } = layers;
    let answer = field256::read_part(layout, codeword, spare, lost, groups, tray, start, end);
    answered(answer, codeword, spare)
}

/// What the library's answer over these two buffers means.
pub(crate) fn answered<'a, S>(
    answer: ffi::Part,
    codeword: &'a [S],
    spare: &'a [S],
) -> Result<&'a [S], Refusal> {
    let ffi::Part {
        refusal,
        source,
        offset,
        length,
    } = answer;
    let from = if source == 2 { spare } else { codeword };
    // The part lies in the buffer named, and is empty where the call is refused.
    Refusal::unless_done(refusal, &from[offset..][..length])
}
