//! Calls for many codewords, interleaved.

use crate::ffi::field256;
use crate::repair::answered;
use crate::{Layout, Rack, Refusal, Repaired, Tray};

/// Stores the data of `many` codewords, as [`store`](crate::store()) does for each.
///
/// Done: all many·n·L bytes of `codewords` are written, whatever they held; each part is the codeword
/// of the part of `data`. Refused: `codewords` is as it was.
///
/// Refused, in this order: [`Refusal::Layout`]; [`Refusal::Length`] where `data` has not many·k·L
/// bytes or `codewords` not many·n·L.
///
/// ```
/// use gesarumbo::{store, store_batch, Layout, Refusal};
///
/// // Two trays of one symbol each, three codewords.
/// let layout = Layout::new(2, 1, 1, 1);
/// let mut codewords = [0; 6];
/// store_batch(layout, 3, &[0x01, 0x02, 0x03], &mut codewords)?;
/// assert_eq!(codewords, [0x01, 0x02, 0x03, 0x01, 0x02, 0x03]);
///
/// assert_eq!(store_batch(layout, 2, &[0x01, 0x02, 0x03], &mut codewords), Err(Refusal::Length));
/// assert_eq!(store_batch(layout, 0, &[], &mut []), Ok(()));
/// # Ok::<(), Refusal>(())
/// ```
pub fn store_batch(
    layout: Layout,
    many: usize,
    data: &[u8],
    codewords: &mut [u8],
) -> Result<(), Refusal> {
    Refusal::unless_done(field256::store_batch(layout, many, data, codewords), ())
}

/// Works out what a helper rack sends for the repair of a tray of the host rack in `many` codewords,
/// as [`share`](crate::share()) does for each.
///
/// `rack` is the many·u·L bytes of the helper's trays. Done: all many·L/s bytes of `share` are
/// written, whatever they held; each part is the share of the part of `rack`. Refused: `share` is as
/// it was.
///
/// Refused, in this order: [`Refusal::Layout`]; [`Refusal::Length`] where `rack` has not many·u·L
/// bytes or `share` not many·L/s; [`Refusal::Number`] where a rack is not below B; [`Refusal::Host`]
/// where the two racks are the same.
///
/// ```
/// use gesarumbo::{share_batch, Layout, Rack, Refusal};
///
/// // One layer, so that a share is the exclusive or of the rack's three trays; two codewords.
/// let layout = Layout::new(2, 3, 3, 1);
/// let mut sent = [0; 2];
/// let rack = [0x11, 0x21, 0x12, 0x22, 0x14, 0x24];
/// share_batch(layout, 2, Rack::new(0), Rack::new(1), &rack, &mut sent)?;
/// assert_eq!(sent, [0x11 ^ 0x12 ^ 0x14, 0x21 ^ 0x22 ^ 0x24]);
/// # Ok::<(), Refusal>(())
/// ```
pub fn share_batch(
    layout: Layout,
    many: usize,
    host: Rack,
    helper: Rack,
    rack: &[u8],
    share: &mut [u8],
) -> Result<(), Refusal> {
    let refusal = field256::share_batch(layout, many, host, helper, rack, share);
    Refusal::unless_done(refusal, ())
}

/// Repairs a lost tray of `many` codewords, or a piece of it, the same groups of all, as
/// [`repair`](crate::repair()) does for each.
///
/// `helpers` rise, and `shares` are theirs in this order, each helper's many·L/s bytes as
/// [`share_batch`] gives them; `host` is the many·u·L bytes of the lost tray's rack, of which those of
/// the lost tray are not looked at; `spare` has many·L bytes.
///
/// Done: each part of `spare` is as the repair of one codeword leaves it: the layers of the groups
/// from `first` on are written, as many groups as `budget` allows and are left, and no other byte.
/// Symbols are counted in all codewords together. Refused: `spare` is as it was. It may be cut into
/// pieces as the repair of one codeword may.
///
/// Refused, in this order: [`Refusal::Layout`], also where E is 1; [`Refusal::Length`] where
/// `shares` has not many·d·L/s bytes, `host` not many·u·L or `spare` not many·L; [`Refusal::Number`]
/// where the tray is not below n or a helper not below B; [`Refusal::Order`] where the helpers do not
/// rise; [`Refusal::Count`] where they are not d; [`Refusal::Host`] where the lost tray's rack is one
/// of them; [`Refusal::FirstGroup`] where the first group is above L/s.
///
/// ```
/// use gesarumbo::{repair, repair_batch, Layout, Rack, Refusal, Repaired, Tray};
///
/// // Two codewords with the same shares.
/// let (layout, lost, helpers) = (Layout::new(3, 1, 1, 2), Tray::new(0), [1, 2].map(Rack::new));
/// let host = [0xFF; 2 * 8]; // the lost tray's own bytes, which are not looked at
/// let mut spare = [0xEE; 2 * 8];
/// let mut piece = |first| {
///     repair_batch(layout, 2, lost, &helpers, &[0x03; 2 * 8], &host, &mut spare, first, 3)
/// };
/// assert_eq!(piece(0), Ok(Repaired { groups: 3, crossed: 12, remaining: 4 }));
/// assert_eq!(piece(3), Ok(Repaired { groups: 1, crossed: 4, remaining: 0 }));
///
/// let mut alone = [0xEE; 8];
/// repair(layout, lost, &helpers, &[0x03; 8], &host[..8], &mut alone, 0, 4)?;
/// assert!((0..8).all(|j| spare[2 * j..2 * j + 2] == [alone[j]; 2]));
/// # Ok::<(), Refusal>(())
/// ```
#[allow(clippy::too_many_arguments)] // a repair has as many
pub fn repair_batch(
    layout: Layout,
    many: usize,
    lost: Tray,
    helpers: &[Rack],
    shares: &[u8],
    host: &[u8],
    spare: &mut [u8],
    first: u64,
    budget: u64,
) -> Result<Repaired, Refusal> {
    answered(field256::repair_batch(
        layout, many, lost, helpers, shares, host, spare, first, budget,
    ))
}
