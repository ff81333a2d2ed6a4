//! Repair cards: the ready multipliers of one group of a repair.

use crate::ffi::field256;
use crate::repair::answered;
use crate::{Layout, Rack, Refusal, Repaired, Tray};

/// Prints the right card for a lost tray, d helper racks and a group.
///
/// A card has d multipliers for each of the s sums of the lost tray's rack, d·s bytes: those of
/// digit 0 first, helpers in their order. The sum of digit a is the exclusive or of the helpers'
/// share symbols of the group, each times its multiplier for a. The right card gives the sums of
/// the host rack in the group's layers for every codeword of the layout, and there is exactly one;
/// which tray of the rack is lost does not matter.
///
/// Done: all of `card` is written, whatever it held. Refused: `card` is as it was.
///
/// Refused, in this order: [`Refusal::Layout`], also where E is 1; [`Refusal::Length`] where `card`
/// has not d·s bytes; [`Refusal::Number`] where the tray is not below n, a helper not below B or
/// the group not below L/s; [`Refusal::Order`] where the helpers do not rise; [`Refusal::Count`]
/// where they are not d; [`Refusal::Host`] where the lost tray's rack is one of them.
///
/// ```
/// use gesarumbo::{card, Layout, Rack, Tray};
///
/// // With two racks of one tray both trays are the same, and the multiplier is 1.
/// let mut only = [0];
/// card(Layout::new(2, 1, 1, 1), Tray::new(1), &[Rack::new(0)], 0, &mut only)?;
/// assert_eq!(only, [1]);
/// # Ok::<(), gesarumbo::Refusal>(())
/// ```
pub fn card(
    layout: Layout,
    lost: Tray,
    helpers: &[Rack],
    group: u64,
    card: &mut [u8],
) -> Result<(), Refusal> {
    Refusal::unless_done(field256::card(layout, lost, helpers, group, card), ())
}

/// Tests a card for a lost tray, d helper racks and a group, whoever has printed it: see
/// [`card()`].
///
/// Done: the card is right. Nothing is written.
///
/// Refused, in this order: as [`card()`] is, and last [`Refusal::Card`], exactly where the card is
/// not right.
///
/// ```
/// use gesarumbo::{card, card_test, Layout, Rack, Refusal, Tray};
///
/// let (layout, lost, helpers) = (Layout::new(4, 3, 8, 3), Tray::new(4), [0, 2, 3].map(Rack::new));
/// let mut printed = [0; 6];
/// card(layout, lost, &helpers, 5, &mut printed)?;
/// assert_eq!(card_test(layout, lost, &helpers, &printed, 5), Ok(()));
/// printed[3] ^= 1;
/// assert_eq!(card_test(layout, lost, &helpers, &printed, 5), Err(Refusal::Card));
/// # Ok::<(), Refusal>(())
/// ```
pub fn card_test(
    layout: Layout,
    lost: Tray,
    helpers: &[Rack],
    card: &[u8],
    group: u64,
) -> Result<(), Refusal> {
    Refusal::unless_done(field256::card_test(layout, lost, helpers, card, group), ())
}

/// Repairs one group of a lost tray by a card, which is tested too.
///
/// All but the card and the group is lent as to [`repair`](crate::repair()). Done: what that call
/// does and reports with this first group and a budget of 1, for any shares; the group's layers are
/// written in `spare`, and no other byte of it. Refused: `spare` is as it was.
///
/// Refused, in this order: [`Refusal::Layout`], also where E is 1; [`Refusal::Length`] where `card`
/// has not d·s bytes, `shares` not d·L/s, `host` not u·L or `spare` not L; [`Refusal::Number`]
/// where the tray is not below n, a helper not below B or the group not below L/s;
/// [`Refusal::Order`] where the helpers do not rise; [`Refusal::Count`] where they are not d;
/// [`Refusal::Host`] where the lost tray's rack is one of them; [`Refusal::Card`], exactly where
/// the card is not right.
///
/// ```
/// use gesarumbo::{card, card_repair, Layout, Rack, Refusal, Repaired, Tray};
///
/// let (layout, lost, helpers) = (Layout::new(3, 1, 1, 2), Tray::new(0), [1, 2].map(Rack::new));
/// let (shares, host) = ([0x03; 8], [0xFF; 8]);
/// let (mut printed, mut spare) = ([0; 4], [0xEE; 8]);
/// card(layout, lost, &helpers, 2, &mut printed)?;
/// let done = card_repair(layout, lost, &helpers, &printed, &shares, &host, &mut spare, 2)?;
/// assert_eq!(done, Repaired { groups: 1, crossed: 2, remaining: 2 });
/// assert_eq!(spare, [0xEE, 0xEE, 0xEE, 0xEE, 0x24, 0x24, 0xEE, 0xEE]);
/// # Ok::<(), Refusal>(())
/// ```
#[allow(clippy::too_many_arguments)] // a repair has as many
pub fn card_repair(
    layout: Layout,
    lost: Tray,
    helpers: &[Rack],
    card: &[u8],
    shares: &[u8],
    host: &[u8],
    spare: &mut [u8],
    group: u64,
) -> Result<Repaired, Refusal> {
    answered(field256::card_repair(
        layout, lost, helpers, card, shares, host, spare, group,
    ))
}
