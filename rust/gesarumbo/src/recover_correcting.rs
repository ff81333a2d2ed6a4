//! Recovering erased trays though one of the others may be wrong.

use crate::ffi::{self, field256};
use crate::{Layout, Refusal, Tray};

/// What a recovery found beside the erased trays.
#[derive(Clone, Copy, Debug, PartialEq, Eq)]
pub struct Recovered {
    /// The tray that was wrong and has been put right, none where no tray was.
    pub tray: Option<Tray>,
    /// How many checks of each layer are left to test the trays that are not erased: r less the
    /// erased trays. With 0 nothing could be tested, with 1 a wrong tray is seen but not found.
    pub checks: u32,
}

/// Fills the erased trays of a codeword from all the others, of which one may be wrong, in any of
/// its symbols: errors and erasures.
///
/// Where a codeword has the trays that are not listed, answer and bytes are those of
/// [`recover`](crate::recover()), and no tray is named. Where none has, but at least two checks are
/// left, and changing one tray that is not listed makes these trays a codeword's, that tray is
/// named, and it and the erased ones are written. At most one tray and one change of it do so.
///
/// Done: `codeword` is a codeword. The erased trays and the one named alone were written, and the
/// old bytes of the erased ones were not looked at. If at most one surviving tray differs from a
/// codeword, in any of its symbols, and at least two checks are left, that codeword is what
/// `codeword` becomes, and the tray that differs is named, and no other. With at least three left,
/// two wrong trays are never taken for another one. Refused: `codeword` is as it was.
///
/// Refused, in this order: [`Refusal::Layout`]; [`Refusal::Length`] where `codeword` has not n·L
/// bytes; [`Refusal::Number`] where a tray is not below n; [`Refusal::Order`] where the list does
/// not rise; [`Refusal::Count`] where it has more than r trays; [`Refusal::Survivors`] exactly
/// where no codeword has the survivors, nor has one with one of them changed while two checks are
/// left.
///
/// ```
/// use gesarumbo::{recover, recover_correcting, store, Layout, Recovered, Refusal, Tray};
///
/// let layout = Layout::new(4, 3, 8, 3);
/// let mut codeword = [0; 12 * 16];
/// store(layout, &[0xA7; 8 * 16], &mut codeword)?;
/// let whole = codeword;
///
/// // Trays 2 and 9 are missing, and one bit of tray 5 has flipped.
/// codeword[2 * 16..3 * 16].fill(0);
/// codeword[9 * 16..10 * 16].fill(0);
/// codeword[5 * 16 + 3] ^= 0x08;
/// let erased = [2, 9].map(Tray::new);
/// assert_eq!(recover(layout, &mut codeword, &erased), Err(Refusal::Survivors));
/// let named = Recovered { tray: Some(Tray::new(5)), checks: 2 };
/// assert_eq!(recover_correcting(layout, &mut codeword, &erased), Ok(named));
/// assert_eq!(codeword, whole);
///
/// let none_wrong = Recovered { tray: None, checks: 2 };
/// assert_eq!(recover_correcting(layout, &mut codeword, &erased), Ok(none_wrong));
/// # Ok::<(), Refusal>(())
/// ```
pub fn recover_correcting(
    layout: Layout,
    codeword: &mut [u8],
    erased: &[Tray],
) -> Result<Recovered, Refusal> {
    answered(
        layout,
        field256::recover_correcting(layout, codeword, erased),
    )
}

/// What the library's answer over this layout means.
pub(crate) fn answered(layout: Layout, answer: ffi::Recovered) -> Result<Recovered, Refusal> {
    let ffi::Recovered {
        refusal,
        tray,
        checks,
    } = answer;
    // An admissible layout has at most 60 trays: the product does not wrap where the call was done.
    let trays = layout.racks.wrapping_mul(layout.size);
    let tray = (tray.number() != trays).then_some(tray);
    Refusal::unless_done(refusal, Recovered { tray, checks })
}
