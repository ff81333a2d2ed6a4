//! The repair of lost trays of one rack from shares, whole or in pieces.

use crate::ffi::{self, field256};
use crate::{Layout, Rack, Refusal, Tray};

/// What a piece of a repair did.
#[derive(Clone, Copy, Debug, PartialEq, Eq)]
pub struct Repaired {
    /// Groups done: the smaller of the budget and the groups left.
    pub groups: u64,
    /// Symbols crossed: d for each lost tray, codeword and group done.
    pub crossed: u64,
    /// Symbols still to come: as many for each group after the last one done.
    pub remaining: u64,
}

/// Repairs a lost tray, or a piece of it, from the shares of d helper racks and the sound trays of
/// its own rack.
///
/// `helpers` rise, and `shares` are theirs in this order, L/s bytes each; `host` is the u·L bytes
/// of the lost tray's rack, of which those of the lost tray are not looked at; `spare` has L bytes.
///
/// Done: the groups from `first` on are done, as many as `budget` allows and are left. Their layers
/// are written in `spare`, and no other byte of it. With the shares and sound trays of a codeword
/// these are that codeword's lost symbols; for any others they are fixed all the same by the checks
/// summed over each group. A budget of 0, or a first group of L/s, does nothing. Refused: `spare`
/// is as it was.
///
/// A repair may be cut into any pieces, the first from group 0 and each later one from where the
/// last done one ended, and refused calls may come between: the layers of all groups done are then
/// as one uncut repair writes them, and the rest of the spare is as it was.
///
/// Refused, in this order: [`Refusal::Layout`], also where E is 1; [`Refusal::Length`] where
/// `shares` has not d·L/s bytes, `host` not u·L or `spare` not L; [`Refusal::Number`] where the
/// tray is not below n or a helper not below B; [`Refusal::Order`] where the helpers do not rise;
/// [`Refusal::Count`] where they are not d; [`Refusal::Host`] where the lost tray's rack is one of
/// them; [`Refusal::FirstGroup`] where the first group is above L/s.
///
/// ```
/// use gesarumbo::{repair, Layout, Rack, Refusal, Repaired, Tray};
///
/// let (layout, lost, helpers) = (Layout::new(3, 1, 1, 2), Tray::new(0), [1, 2].map(Rack::new));
/// let shares = [0x03; 8];
/// let host = [0xFF; 8]; // the lost tray's own bytes, which are not looked at
/// let mut spare = [0xEE; 8];
/// let mut piece = |first, budget| {
///     repair(layout, lost, &helpers, &shares, &host, &mut spare, first, budget)
/// };
///
/// assert_eq!(piece(0, 1), Ok(Repaired { groups: 1, crossed: 2, remaining: 6 }));
/// assert_eq!(piece(5, 1), Err(Refusal::FirstGroup));
/// assert_eq!(piece(1, 9), Ok(Repaired { groups: 3, crossed: 6, remaining: 0 }));
/// assert_eq!(spare, [0x14, 0x14, 0x18, 0x18, 0x24, 0x24, 0x28, 0x28]);
/// ```
#[allow(clippy::too_many_arguments)] // a repair has as many
pub fn repair(
    layout: Layout,
    lost: Tray,
    helpers: &[Rack],
    shares: &[u8],
    host: &[u8],
    spare: &mut [u8],
    first: u64,
    budget: u64,
) -> Result<Repaired, Refusal> {
    answered(field256::repair(
        layout, lost, helpers, shares, host, spare, first, budget,
    ))
}

/// Repairs several lost trays of one rack, or a piece of them, from the shares of d helper racks
/// and the rack's sound trays.
///
/// With e for the length of `lost`: `lost` and `helpers` rise; `shares` are the helpers' in this
/// order, e·L/s bytes each as [`share_many`](crate::share_many) gives them; `host` is the u·L bytes
/// of the lost trays' rack, of which those of the lost trays are not looked at; `spare` has e·L
/// bytes, tray after tray as listed. With e = 1 answer and bytes are those of [`repair`].
///
/// Done: the groups from `first` on are done, as many as `budget` allows and are left. Their layers
/// of every tray are written in `spare`, and no other byte of it. With the shares and sound trays
/// of a codeword these are that codeword's lost symbols; for any others they are fixed all the same
/// by the checks summed over each group. A budget of 0, or a first group of L/s, does nothing.
/// Refused: `spare` is as it was. It may be cut into pieces as the repair of one tray may.
///
/// Refused, in this order: [`Refusal::Layout`], also where E is 1; [`Refusal::Length`] where
/// `shares` has not e·d·L/s bytes, `host` not u·L or `spare` not e·L; [`Refusal::Number`] where a
/// tray is not below n or outside the first one's rack, or a helper not below B; [`Refusal::Order`]
/// where either list does not rise; [`Refusal::Count`] where the helpers are not d;
/// [`Refusal::LostCount`] where e is not 1 to u − v, with v = k mod u; [`Refusal::Host`] where the
/// lost trays' rack is a helper; [`Refusal::FirstGroup`] where the first group is above L/s.
///
/// ```
/// use gesarumbo::{repair_many, share_many, store, Layout, Rack, Refusal, Repaired, Tray};
///
/// let (layout, host, helpers) = (Layout::new(2, 3, 3, 1), Rack::new(1), [Rack::new(0)]);
/// let mut codeword = [0; 6];
/// store(layout, &[0x11, 0x12, 0x14], &mut codeword)?;
///
/// // Trays 3 and 5 are lost together: rack 0 sends two symbols.
/// let (mut shares, mut spare) = ([0; 2], [0; 2]);
/// share_many(layout, 2, host, helpers[0], &codeword[..3], &mut shares)?;
/// let lost = [3, 5].map(Tray::new);
/// let done = repair_many(layout, &lost, &helpers, &shares, &codeword[3..], &mut spare, 0, 1)?;
/// assert_eq!(done, Repaired { groups: 1, crossed: 2, remaining: 0 });
/// assert_eq!(spare, [codeword[3], codeword[5]]);
///
/// // Trays of two racks are not repaired together.
/// let lost = [2, 5].map(Tray::new);
/// let refused = repair_many(layout, &lost, &helpers, &shares, &codeword[3..], &mut spare, 0, 1);
/// assert_eq!(refused, Err(Refusal::Number));
/// # Ok::<(), Refusal>(())
/// ```
#[allow(clippy::too_many_arguments)] // a repair has as many
pub fn repair_many(
    layout: Layout,
    lost: &[Tray],
    helpers: &[Rack],
    shares: &[u8],
    host: &[u8],
    spare: &mut [u8],
    first: u64,
    budget: u64,
) -> Result<Repaired, Refusal> {
    answered(field256::repair_many(
        layout, lost, helpers, shares, host, spare, first, budget,
    ))
}

/// What the library's answer means.
pub(crate) fn answered(answer: ffi::Repaired) -> Result<Repaired, Refusal> {
    let ffi::Repaired {
        refusal,
        groups,
        crossed,
        remaining,
    } = answer;
    Refusal::unless_done(
        refusal,
        Repaired {
            groups,
            crossed,
            remaining,
        },
    )
}
