//! The repair of a lost tray from shares of which one may be wrong.

use crate::ffi::{self, field256};
use crate::{Layout, Rack, Refusal, Tray};

/// What a repair from shares of which one may be wrong found and did.
#[derive(Clone, Copy, Debug, PartialEq, Eq)]
pub struct Corrected {
    /// The helper whose share was wrong, none where no share was.
    pub rack: Option<Rack>,
    /// Symbols crossed: d·L/s.
    pub crossed: u64,
}

/// Repairs a lost tray, all groups at once, from the shares of d helper racks, of which one may be
/// wrong, and the sound trays of its own rack. The layout's number E is 1.
///
/// `helpers` rise, and `shares` are theirs in this order, L/s bytes each as
/// [`share`](crate::share()) gives them; `host` is the u·L bytes of the lost tray's rack, of which
/// those of the lost tray are not looked at; `spare` has L bytes.
///
/// Done: all of `spare` is written, whatever it held. If the sound trays are a codeword's, and the
/// shares are but for at most one helper's, which may differ in any of its symbols, then the spare
/// is the codeword's lost tray, and the rack named is the one whose share differs. From any other
/// shares the answer is fixed all the same: where they meet the checks summed over every group, or
/// can be made to by changing one helper's share, the spare is the tray of the shares so made
/// right, and the rack named is the one whose share had to be changed. At most one helper and one
/// changed share make the checks hold. Where two shares are wrong nothing is said of the tray.
/// Refused: `spare` is as it was.
///
/// Refused, in this order: [`Refusal::Layout`], also where E is 0; [`Refusal::Length`] where
/// `shares` has not d·L/s bytes, `host` not u·L or `spare` not L; [`Refusal::Number`] where the
/// tray is not below n or a helper not below B; [`Refusal::Order`] where the helpers do not rise;
/// [`Refusal::Count`] where they are not d; [`Refusal::Host`] where the lost tray's rack is one of
/// them; [`Refusal::Shares`] where the shares neither meet the checks nor can be made to by
/// changing one helper's share.
///
/// ```
/// use gesarumbo::{repair_correcting, store, Corrected, Layout, Rack, Refusal, Tray};
///
/// // Four racks of one tray of one symbol; a share is the symbol itself.
/// let layout = Layout::with_errors(4, 1, 1, 3, 1);
/// let mut codeword = [0; 4];
/// store(layout, &[0xA7], &mut codeword)?;
/// let mut shares = [codeword[1], codeword[2], codeword[3]];
/// let mut spare = [0];
/// let mut repaired = |shares: &[u8]| {
///     let helpers = [1, 2, 3].map(Rack::new);
///     let done = repair_correcting(layout, Tray::new(0), &helpers, shares, &[0], &mut spare);
///     done.map(|done| (done, spare[0]))
/// };
/// assert_eq!(repaired(&shares), Ok((Corrected { rack: None, crossed: 3 }, 0xA7)));
///
/// // Rack 2 has a stale share.
/// shares[1] ^= 0x10;
/// let named = Corrected { rack: Some(Rack::new(2)), crossed: 3 };
/// assert_eq!(repaired(&shares), Ok((named, 0xA7)));
/// # Ok::<(), Refusal>(())
/// ```
pub fn repair_correcting(
    layout: Layout,
    lost: Tray,
    helpers: &[Rack],
    shares: &[u8],
    host: &[u8],
    spare: &mut [u8],
) -> Result<Corrected, Refusal> {
    let answer = field256::repair_correcting(layout, lost, helpers, shares, host, spare);
    answered(layout, answer)
}

/// What the library's answer over this layout means.
pub(crate) fn answered(layout: Layout, answer: ffi::Corrected) -> Result<Corrected, Refusal> {
    let ffi::Corrected {
        refusal,
        rack,
        crossed,
    } = answer;
    let rack = (rack.number() != layout.racks).then_some(rack);
    Refusal::unless_done(refusal, Corrected { rack, crossed })
}
